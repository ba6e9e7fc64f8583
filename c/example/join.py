from wtf8 import String

s = String("a\ud83d")
s.push("\udca9")
print(len(s), "units:", s)
