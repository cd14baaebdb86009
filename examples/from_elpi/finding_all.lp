% There is no `std.findall`: nothing that a search finds outlives it. Printing each answer needs no list.
p a.
p b.
pred print_all i:(A -> prop).
print_all P :- beta P X G, G, print X, fail.
print_all P.
%? print_all p
%= a
%= b
%= answer 1
%= no more
