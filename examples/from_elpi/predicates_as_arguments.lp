% So a predicate that takes a predicate calls it by `beta`; then it may be an abstraction, as in ELPI.
pred plain i:(A -> B -> prop), i:list A, o:list B.
plain P [] [].
plain P (X :: Xs) (Y :: Ys) :- P X Y, plain P Xs Ys.
pred map i:(A -> B -> prop), i:list A, o:list B.
map P [] [].
map P (X :: Xs) (Y :: Ys) :- beta P X Q, beta Q Y G, G, map P Xs Ys.
%? map (x\ y\ y = f x) [a, b] Ys
%= answer 1
%=   Ys = (f a) :: ((f b) :: [])
%= no more
%? plain (x\ y\ y = f x) [a, b] Ys
%= fault: redex
