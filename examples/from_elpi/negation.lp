% There is no `not`: these two lines, which are those of lib/control.lp.
pred not i:prop.
not G :- G, !, fail.
not G.
%? not (a = b)
%= answer 1
%= no more
%? not (X = b)
%= failure
