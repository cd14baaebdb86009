% Options: a value, or none.
kind option type -> type.
type none option A.
type some A -> option A.

% `is_none O`: O has no value.
%? is_none none
%= answer 1
%= no more
%? is_none (some a)
%= failure
pred is_none i:option A.
is_none none.

% `is_some O X`: O has the value X.
%? is_some (some a) X
%= answer 1
%=   X = a
%= no more
pred is_some i:option A, o:A.
is_some (some X) X.

% `value_or O Y X`: X is the value of O, or Y where it has none.
%? value_or none b X ; value_or (some a) b X
%= answer 1
%=   X = b
%= answer 2
%=   X = a
%= no more
pred value_or i:option A, i:A, o:A.
value_or none Y Y.
value_or (some X) Y X.

% `map_option P O R`: R has a value of which P holds, behind the one of O, or none where O has none.
%? map_option (x\ y\ y = f x) (some a) R
%= answer 1
%=   R = some (f a)
%= no more
pred map_option i:(A -> B -> prop), i:option A, o:option B.
map_option P none none.
map_option P (some X) (some Y) :- beta P X Q, beta Q Y G, G.

% `bind_option P O R`: R is an option of which P holds, behind the value of O, or none where O has none.
%? bind_option (x\ r\ (lt 0 x, r = some x)) (some 3) R
%= answer 1
%=   R = some 3
%= no more
pred bind_option i:(A -> option B -> prop), i:option A, o:option B.
bind_option P none none.
bind_option P (some X) R :- beta P X Q, beta Q R G, G.

% `find P Xs O`: O has the first element of Xs of which P holds, or none.
%? find (lt 2) [1, 3, 4] O
%= answer 1
%=   O = some 3
%= no more
pred find i:(A -> prop), i:list A, o:option A.
find P (X :: Xs) O :- beta P X G, G, !, O = some X.
find P (X :: Xs) O :- find P Xs O.
find P [] none.

% `values Os Xs`: Xs has the values of the options of Os that have one.
%? values [some a, none, some b] Xs
%= answer 1
%=   Xs = a :: (b :: [])
%= no more
pred values i:list (option A), o:list A.
values [] [].
values (none :: Os) Xs :- values Os Xs.
values (some X :: Os) (X :: Xs) :- values Os Xs.

% `option_of P O`: O has the first X of which P holds, or none where there is none.
%? option_of (x\ (x = a ; x = b)) O
%= answer 1
%=   O = some a
%= no more
pred option_of i:(A -> prop), o:option A.
option_of P O :- beta P X G, G, !, O = some X.
option_of P none.
