"""A symbol of 16-QAM, received at gain 5 as (3, -20), of which 3 bits are payload; then the same frame as a line; then a bad gain."""

from softdemap import Qam, Refused, answer_line, demap_frame

reading = demap_frame(Qam(2, 2), gains=[5], yi=[3], yq=[-20], payload=3, weight=1, shift=2, limit=32767)
print(reading.probes, "probes, bits", reading.hard.tolist(), "soft values", reading.soft.tolist())  # plus leans to 0, minus to 1

print(answer_line("01020200030001027FFF000500000003FFFFFFEC"))

try:
    demap_frame(Qam(2, 2), gains=[5, 5000], yi=[3, 3], yq=[-20, -20])
except Refused as refused:
    print(refused)
