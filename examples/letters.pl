p(a).
p(b).
p(c).
