% There is no `if`: these two lines, which are those of lib/control.lp. A clause with `!` reads better.
pred if i:prop, i:prop, i:prop.
if C G H :- C, !, G.
if C G H :- H.
%? if (lt 2 1) (X = yes) (X = no)
%= answer 1
%=   X = no
%= no more
