import sys
from beglushan import Hall, NumbersExhausted, Refused

hall = Hall(sys.argv[1:])
try:
    with hall.acquire() as number:
        print(f"number {number.value}, token {number.token}")
        number.check()
except NumbersExhausted:
    print("all numbers are held")
try:
    print(f"name {hall.rename()}")
except Refused as refusal:
    print(f"no name: {refusal.text}")
