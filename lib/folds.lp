% Folds over lists. `P X A B` holds where an element X makes B of A.

% `fold Xs A P B`: B is made of A by the elements of Xs from the left.
%? fold [1, 2, 3] 10 (x\ a\ b\ b is a - x) B
%= answer 1
%=   B = 4
%= no more
pred fold i:list A, i:B, i:(A -> B -> B -> prop), o:B.
fold [] A P A.
fold (X :: Xs) A P C :- beta P X Q, beta Q A R, beta R B G, G, fold Xs B P C.

% `fold_right Xs A P B`: B is made of A by the elements of Xs from the right.
%? fold_right [a, b] c (x\ y\ z\ z = f x y) B
%= answer 1
%=   B = f a (f b c)
%= no more
pred fold_right i:list A, i:B, i:(A -> B -> B -> prop), o:B.
fold_right [] A P A.
fold_right (X :: Xs) A P C :- fold_right Xs A P B, beta P X Q, beta Q B R, beta R C G, G.

% `fold_pairwise Xs Ys A P B`: B is made of A by the elements of Xs and Ys at one place, from the left. It fails where
% one of the lists is longer. `P X Y A B` holds where X and Y make B of A.
%? fold_pairwise [1, 2] [3, 4] 0 (x\ y\ a\ b\ b is a + x * y) B
%= answer 1
%=   B = 11
%= no more
pred fold_pairwise i:list A, i:list B, i:C, i:(A -> B -> C -> C -> prop), o:C.
fold_pairwise [] [] A P A.
fold_pairwise (X :: Xs) (Y :: Ys) A P C :-
  beta P X Q, beta Q Y R, beta R A S, beta S B G, G, fold_pairwise Xs Ys B P C.

% `fold_map Xs A P Ys B`: Ys has for each element of Xs what it becomes, and B is made of A, from the left.
% `P X A Y B` holds where X becomes Y and makes B of A.
%? fold_map [a, b] 0 (x\ n\ y\ m\ (y = f n x, m is n + 1)) Ys N
%= answer 1
%=   Ys = (f 0 a) :: ((f 1 b) :: [])
%=   N = 2
%= no more
pred fold_map i:list A, i:B, i:(A -> B -> C -> B -> prop), o:list C, o:B.
fold_map [] A P [] A.
fold_map (X :: Xs) A P (Y :: Ys) C :- beta P X Q, beta Q A R, beta R Y S, beta S B G, G, fold_map Xs B P Ys C.

% `sum Xs N`: N is the sum of the integers of Xs.
%? sum [1, 2, 3] N
%= answer 1
%=   N = 6
%= no more
pred sum i:list int, o:int.
sum Xs N :- fold Xs 0 (x\ a\ b\ b is a + x) N.

% `product Xs N`: N is the product of the integers of Xs.
%? product [2, 3, 4] N
%= answer 1
%=   N = 24
%= no more
pred product i:list int, o:int.
product Xs N :- fold Xs 1 (x\ a\ b\ b is a * x) N.

% `count P Xs N`: P holds of N elements of Xs.
%? count (lt 1) [1, 2, 3] N
%= answer 1
%=   N = 2
%= no more
pred count i:(A -> prop), i:list A, o:int.
count P [] 0.
count P (X :: Xs) N :- beta P X G, G, !, count P Xs M, N is M + 1.
count P (X :: Xs) N :- count P Xs N.

% `greatest Xs N`: N is the greatest integer of Xs. It fails where Xs is empty.
%? greatest [2, 7, 5] N
%= answer 1
%=   N = 7
%= no more
pred greatest i:list int, o:int.
greatest (X :: Xs) N :- fold Xs X (x\ a\ b\ (lt a x, !, b = x ; b = a)) N.
