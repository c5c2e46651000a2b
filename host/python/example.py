"""A surveyor's question: which samples are dated, by any number of overlaps, against a beam of known date, how, and what rests on sample 2 alone?

Overlaps are links o, "lies in the same beam as" is b; record 0 is dated. Run: host/shared && python3 host/python/example.py
"""

from dating import Register

SHEET = """
0 o 1
2 o 1
2 b 3
4 o 3
4 o 5
6 b 7
"""
JOINED = "(o|^o|b|^b)+"

register = Register(8)
for line in SHEET.split("\n"):
    if line:
        from_, letter, to = line.split()
        register.add(int(from_), letter, int(to))

dated = [to for from_, to in register.pairs(JOINED) if from_ == 0 and to != 0]
print("dated against 0:", dated)
for sample in (5, 7):
    print(f"{sample}: {register.chain(0, sample, JOINED) or 'not dated'}")
print("undated without 2:", register.sole_support(2, JOINED, [0]))
