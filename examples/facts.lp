p a.
p b.
