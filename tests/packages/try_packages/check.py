"""Uses the package that is installed, on the streams in the folder that is named."""
import os
import sys

import cityseq

folder = sys.argv[1]
town = os.path.join(folder, "town.city.jsonl")
sample = os.path.join(folder, "sample.city.jsonl")
broken = cityseq.check(os.path.join(folder, "broken.city.jsonl"))
assert broken.status == 1, broken
assert str(broken.end) == "line 3, byte 144: 25 vertex index out of range", broken
assert broken.end.id == "b2", broken.end
assert cityseq.info(town).box == "995,1990,1050,2005"
kept = cityseq.filter(sample, "copy.city.jsonl", jobs=2)
assert kept.features == 120, kept
with open(sample, "rb") as first, open("copy.city.jsonl", "rb") as second:
    assert first.read() == second.read()
os.remove("copy.city.jsonl")
print(cityseq.__version__)
