% There is no `(f X as Y)` in a head: write the term, and an equation in the body.
pred whole i:tm, o:tm, o:tm.
whole Y X Y :- Y = f X.
%? whole (f a) X Y
%= answer 1
%=   X = a
%=   Y = f a
%= no more
