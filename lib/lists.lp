% Lists. An input is there as a list when the call is made: where it is a variable, the call fails.
% Where a predicate is an argument, it is a constant, with or without arguments, or an abstraction.

% `append Xs Ys Zs`: Zs is Xs with Ys behind it.
%? append [a] [b, c] Zs
%= answer 1
%=   Zs = a :: (b :: (c :: []))
%= no more
pred append i:list A, i:list A, o:list A.
append [] Ys Ys.
append (X :: Xs) Ys (X :: Zs) :- append Xs Ys Zs.

% `parts Zs Xs Ys`: Xs and Ys are a front of Zs and the rest; an answer for each front.
%? parts [a] Xs Ys
%= answer 1
%=   Xs = []
%=   Ys = a :: []
%= answer 2
%=   Xs = a :: []
%=   Ys = []
%= no more
pred parts i:list A, o:list A, o:list A.
parts Zs [] Zs.
parts (Z :: Zs) (Z :: Xs) Ys :- parts Zs Xs Ys.

% `concat Xss Ys`: Ys has the lists of Xss one behind the other.
%? concat [[a], [], [b, c]] Ys
%= answer 1
%=   Ys = a :: (b :: (c :: []))
%= no more
pred concat i:list (list A), o:list A.
concat [] [].
concat (Xs :: Xss) Zs :- concat Xss Ys, append Xs Ys Zs.

% `reverse Xs Ys`: Ys is Xs from its end to its beginning.
%? reverse [a, b, c] Ys
%= answer 1
%=   Ys = c :: (b :: (a :: []))
%= no more
pred reverse i:list A, o:list A.
reverse Xs Ys :- reverse_onto Xs [] Ys.

% `reverse_onto Xs Ys Zs`: Zs is Xs reversed, with Ys behind it.
%? reverse_onto [a, b] [c] Zs
%= answer 1
%=   Zs = b :: (a :: (c :: []))
%= no more
pred reverse_onto i:list A, i:list A, o:list A.
reverse_onto [] Ys Ys.
reverse_onto (X :: Xs) Ys Zs :- reverse_onto Xs (X :: Ys) Zs.

% `member X Xs`: X unifies with an element of Xs; an answer for each.
%? member (f X) [f a, g b, f c]
%= answer 1
%=   X = a
%= answer 2
%=   X = c
%= no more
pred member o:A, i:list A.
member X (X :: Xs).
member X (Y :: Xs) :- member X Xs.

% `contains Xs X`: X is an element of Xs as it stands. One answer at most, and no variable gets a value.
%? contains [a, Y] X ; contains [a, Y] Y
%= answer 1
%=   Y = ?0
%=   X = ?1
%= no more
%? contains [a, Y] b
%= failure
pred contains i:list A, i:A.
contains (Y :: Xs) X :- same X Y, !.
contains (Y :: Xs) X :- contains Xs X.

% `select X Xs Ys`: X unifies with an element of Xs, and Ys is Xs without it; an answer for each.
%? select X [a, b] Ys
%= answer 1
%=   X = a
%=   Ys = b :: []
%= answer 2
%=   X = b
%=   Ys = a :: []
%= no more
pred select o:A, i:list A, o:list A.
select X (X :: Xs) Xs.
select X (Y :: Xs) (Y :: Ys) :- select X Xs Ys.

% `permutation Xs Ys`: Ys has the elements of Xs in some order; an answer for each order.
%? permutation [a, b] Ys
%= answer 1
%=   Ys = a :: (b :: [])
%= answer 2
%=   Ys = b :: (a :: [])
%= no more
pred permutation i:list A, o:list A.
permutation [] [].
permutation (X :: Xs) (Y :: Ys) :- select Y (X :: Xs) Zs, permutation Zs Ys.

% `unique Xs Ys`: Ys has each element of Xs once, as it stands, where it comes last.
%? unique [a, b, a, X, X] Ys
%= answer 1
%=   X = ?0
%=   Ys = b :: (a :: (?0 :: []))
%= no more
pred unique i:list A, o:list A.
unique [] [].
unique (X :: Xs) Ys :- contains Xs X, !, unique Xs Ys.
unique (X :: Xs) (X :: Ys) :- unique Xs Ys.

% `length Xs N`: Xs has N elements.
%? length [a, X, b] N
%= answer 1
%=   X = ?0
%=   N = 3
%= no more
%? length Xs N
%= failure
pred length i:list A, o:int.
length [] 0.
length (X :: Xs) N :- length Xs M, N is M + 1.

% `nth N Xs X`: X is the element of Xs with N elements before it. It fails where there is none.
%? nth 1 [a, b, c] X
%= answer 1
%=   X = b
%= no more
%? nth 3 [a, b, c] X
%= failure
pred nth i:int, i:list A, o:A.
nth 0 (X :: Xs) X :- !.
nth N (Y :: Xs) X :- lt 0 N, M is N - 1, nth M Xs X.

% `last Xs X`: X is the last element of Xs. It fails where Xs is empty.
%? last [a, b, c] X
%= answer 1
%=   X = c
%= no more
pred last i:list A, o:A.
last (X :: []) X :- !.
last (Y :: Xs) X :- last Xs X.

% `take N Xs Ys`: Ys has the first N elements of Xs, or all where there are fewer.
%? take 2 [a, b, c] Ys
%= answer 1
%=   Ys = a :: (b :: [])
%= no more
pred take i:int, i:list A, o:list A.
take N (X :: Xs) (X :: Ys) :- lt 0 N, !, M is N - 1, take M Xs Ys.
take N Xs [].

% `drop N Xs Ys`: Ys is Xs without its first N elements.
%? drop 2 [a, b, c] Ys
%= answer 1
%=   Ys = c :: []
%= no more
pred drop i:int, i:list A, o:list A.
drop N (X :: Xs) Ys :- lt 0 N, !, M is N - 1, drop M Xs Ys.
drop N Xs Xs.

% `range M N Xs`: Xs has the integers from M to N - 1.
%? range 2 5 Xs
%= answer 1
%=   Xs = 2 :: (3 :: (4 :: []))
%= no more
pred range i:int, i:int, o:list int.
range M N (M :: Xs) :- lt M N, !, L is M + 1, range L N Xs.
range M N [].

% `map P Xs Ys`: P holds of each element of Xs with the one of Ys at its place.
%? map (x\ y\ y is x * x) [1, 2, 3] Ys
%= answer 1
%=   Ys = 1 :: (4 :: (9 :: []))
%= no more
pred map i:(A -> B -> prop), i:list A, o:list B.
map P [] [].
map P (X :: Xs) (Y :: Ys) :- beta P X Q, beta Q Y G, G, map P Xs Ys.

% `filter P Xs Ys`: Ys has those elements of Xs of which P holds.
%? filter (lt 2) [1, 3, 2, 4] Ys
%= answer 1
%=   Ys = 3 :: (4 :: [])
%= no more
pred filter i:(A -> prop), i:list A, o:list A.
filter P [] [].
filter P (X :: Xs) (X :: Ys) :- beta P X G, G, !, filter P Xs Ys.
filter P (X :: Xs) Ys :- filter P Xs Ys.

% `partition P Xs Ys Zs`: Ys has those elements of Xs of which P holds, and Zs the others.
%? partition (lt 2) [1, 3, 2, 4] Ys Zs
%= answer 1
%=   Ys = 3 :: (4 :: [])
%=   Zs = 1 :: (2 :: [])
%= no more
pred partition i:(A -> prop), i:list A, o:list A, o:list A.
partition P [] [] [].
partition P (X :: Xs) (X :: Ys) Zs :- beta P X G, G, !, partition P Xs Ys Zs.
partition P (X :: Xs) Ys (X :: Zs) :- partition P Xs Ys Zs.

% `for_all P Xs`: P holds of each element of Xs, from the left; variables may get values.
%? for_all (x\ x = f Y) [f a, Z]
%= answer 1
%=   Y = a
%=   Z = f a
%= no more
pred for_all i:(A -> prop), i:list A.
for_all P [].
for_all P (X :: Xs) :- beta P X G, G, for_all P Xs.

% `for_some P Xs`: P holds of an element of Xs; an answer for each.
%? for_some (x\ x = f Y) [f a, b, f c]
%= answer 1
%=   Y = a
%= answer 2
%=   Y = c
%= no more
pred for_some i:(A -> prop), i:list A.
for_some P (X :: Xs) :- beta P X G, G.
for_some P (X :: Xs) :- for_some P Xs.

% `sort P Xs Ys`: Ys has the elements of Xs in an order in which no element comes before one that is less, where
% `P X Y` holds where X is less than Y. Equal ones stay in their order. It takes N log N steps for N elements.
%? sort (x\ y\ lt x y) [3, 1, 2, 1] Ys
%= answer 1
%=   Ys = 1 :: (1 :: (2 :: (3 :: [])))
%= no more
pred sort i:(A -> A -> prop), i:list A, o:list A.
sort P Xs Ys :- length Xs N, sort_front P N Xs Ys Zs.

% `sort_front P N Xs Ys Zs`: Ys has the first N elements of Xs in order, and Zs is the rest.
%? sort_front (x\ y\ lt x y) 2 [2, 1, 0] Ys Zs
%= answer 1
%=   Ys = 1 :: (2 :: [])
%=   Zs = 0 :: []
%= no more
pred sort_front i:(A -> A -> prop), i:int, i:list A, o:list A, o:list A.
sort_front P 0 Xs [] Xs :- !.
sort_front P 1 (X :: Xs) [X] Xs :- !.
sort_front P N Xs Ys Zs :-
  half N 0 L, R is N - L, sort_front P L Xs As Rest, sort_front P R Rest Bs Zs, merge P As Bs Ys.

% `half N H L`: L is H and half of N.
%? half 7 0 L
%= answer 1
%=   L = 3
%= no more
pred half i:int, i:int, o:int.
half N H H :- lt N 2, !.
half N H L :- M is N - 2, K is H + 1, half M K L.

% `merge P Xs Ys Zs`: Zs has the elements of Xs and of Ys, both in order, in order.
%? merge (x\ y\ lt x y) [1, 3] [2, 3, 4] Zs
%= answer 1
%=   Zs = 1 :: (2 :: (3 :: (3 :: (4 :: []))))
%= no more
pred merge i:(A -> A -> prop), i:list A, i:list A, o:list A.
merge P [] Ys Ys :- !.
merge P Xs [] Xs :- !.
merge P (X :: Xs) (Y :: Ys) (Y :: Zs) :- beta P Y Q, beta Q X G, G, !, merge P (X :: Xs) Ys Zs.
merge P (X :: Xs) Ys (X :: Zs) :- merge P Xs Ys Zs.
