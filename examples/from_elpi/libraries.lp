% There is no `std` and there are no dotted names. These lines are those of lib/lists.lp; the file can also be named beside
% the program's own, as in `./doqwesha run --query GOAL lib/lists.lp mine.lp`.
pred append i:list A, i:list A, o:list A.
append [] Ys Ys.
append (X :: Xs) Ys (X :: Zs) :- append Xs Ys Zs.
%? append [a] [b] Zs
%= answer 1
%=   Zs = a :: (b :: [])
%= no more
%? std.append [a] [b] Zs
%= refused: query:1:4: char
