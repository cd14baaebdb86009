% Pairs.
kind pair type -> type -> type.
type pr A -> B -> pair A B.

% `fst P X`: X is the first part of P.
%? fst (pr a b) X
%= answer 1
%=   X = a
%= no more
pred fst i:pair A B, o:A.
fst (pr X Y) X.

% `snd P Y`: Y is the second part of P.
%? snd (pr a b) Y
%= answer 1
%=   Y = b
%= no more
pred snd i:pair A B, o:B.
snd (pr X Y) Y.

% `swap P Q`: Q has the parts of P the other way round.
%? swap (pr a b) Q
%= answer 1
%=   Q = pr b a
%= no more
pred swap i:pair A B, o:pair B A.
swap (pr X Y) (pr Y X).

% `zip Xs Ys Ps`: Ps has the pairs of the elements of Xs and of Ys at one place, as far as both go.
%? zip [a, b] [1, 2, 3] Ps
%= answer 1
%=   Ps = (pr a 1) :: ((pr b 2) :: [])
%= no more
pred zip i:list A, i:list B, o:list (pair A B).
zip (X :: Xs) (Y :: Ys) (pr X Y :: Ps) :- !, zip Xs Ys Ps.
zip Xs Ys [].

% `unzip Ps Xs Ys`: Xs and Ys have the first and the second parts of the elements of Ps.
%? unzip [pr a 1, pr b 2] Xs Ys
%= answer 1
%=   Xs = a :: (b :: [])
%=   Ys = 1 :: (2 :: [])
%= no more
pred unzip i:list (pair A B), o:list A, o:list B.
unzip [] [] [].
unzip (pr X Y :: Ps) (X :: Xs) (Y :: Ys) :- unzip Ps Xs Ys.

% `map_fst F P Q`: Q is P with a first part of which F holds, behind P's.
%? map_fst (x\ y\ y = f x) (pr a b) Q
%= answer 1
%=   Q = pr (f a) b
%= no more
pred map_fst i:(A -> B -> prop), i:pair A C, o:pair B C.
map_fst F (pr X Y) (pr Z Y) :- beta F X Q, beta Q Z G, G.

% `map_snd F P Q`: Q is P with a second part of which F holds, behind P's.
%? map_snd (x\ y\ y = f x) (pr a b) Q
%= answer 1
%=   Q = pr a (f b)
%= no more
pred map_snd i:(A -> B -> prop), i:pair C A, o:pair C B.
map_snd F (pr X Y) (pr X Z) :- beta F Y Q, beta Q Z G, G.
