% ELPI's `N > M`, `N < M`, `N >= M` and `N =< M` want `lt` and, for the last two, a clause. Arithmetic has `+`, `-`, `*`.
pred le i:int, i:int.
le M N :- lt N M, !, fail.
le M N.
pred size i:int, o:word.
size N small :- lt N 10, !.
size N large.
%? size 3 S, le 3 3
%= answer 1
%=   S = small
%= no more
%? X is 2 * (3 + 4) - 1
%= answer 1
%=   X = 13
%= no more
