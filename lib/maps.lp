% Maps as association lists: a list of pairs `pr Key Value`, of which the first with a key counts. Keys are compared as
% they stand, by `same`: no variable gets a value. The kind `pair` is that of pairs.lp.

% `lookup M K V`: M has the value V for the key K. It fails where there is none.
%? lookup [pr a 1, pr b 2, pr b 3] b V
%= answer 1
%=   V = 2
%= no more
%? lookup [pr a 1] X V
%= failure
pred lookup i:list (pair K V), i:K, o:V.
lookup (pr L V :: M) K W :- same K L, !, W = V.
lookup (P :: M) K V :- lookup M K V.

% `lookup_or M K D V`: V is the value of M for K, or D where there is none.
%? lookup_or [pr a 1] c 0 V
%= answer 1
%=   V = 0
%= no more
pred lookup_or i:list (pair K V), i:K, i:V, o:V.
lookup_or M K D V :- lookup M K W, !, V = W.
lookup_or M K D D.

% `has_key M K`: M has a value for the key K.
%? has_key [pr a 1] a
%= answer 1
%= no more
%? has_key [pr a 1] b
%= failure
pred has_key i:list (pair K V), i:K.
has_key (pr L V :: M) K :- same K L, !.
has_key (P :: M) K :- has_key M K.

% `put M K V N`: N is M with the value V for K, in the place of an earlier one, or else last.
%? put [pr a 1, pr b 2] a 3 N
%= answer 1
%=   N = (pr a 3) :: ((pr b 2) :: [])
%= no more
pred put i:list (pair K V), i:K, i:V, o:list (pair K V).
put [] K V [pr K V].
put (pr L W :: M) K V (pr K V :: M) :- same K L, !.
put (P :: M) K V (P :: N) :- put M K V N.

% `remove M K N`: N is M without any value for K.
%? remove [pr a 1, pr b 2, pr a 3] a N
%= answer 1
%=   N = (pr b 2) :: []
%= no more
pred remove i:list (pair K V), i:K, o:list (pair K V).
remove [] K [].
remove (pr L V :: M) K N :- same K L, !, remove M K N.
remove (P :: M) K (P :: N) :- remove M K N.

% `update M K P N`: N is M with a value for K of which P holds, behind the earlier one. It fails where there is none.
%? update [pr a 1, pr b 2] b (x\ y\ y is x + 1) N
%= answer 1
%=   N = (pr a 1) :: ((pr b 3) :: [])
%= no more
pred update i:list (pair K V), i:K, i:(V -> V -> prop), o:list (pair K V).
update (pr L V :: M) K P (pr L W :: M) :- same K L, !, beta P V Q, beta Q W G, G.
update (E :: M) K P (E :: N) :- update M K P N.

% `keys M Ks`: Ks has the keys of M in order.
%? keys [pr a 1, pr b 2] Ks
%= answer 1
%=   Ks = a :: (b :: [])
%= no more
pred keys i:list (pair K V), o:list K.
keys [] [].
keys (pr K V :: M) (K :: Ks) :- keys M Ks.

% `values_of M Vs`: Vs has the values of M in order.
%? values_of [pr a 1, pr b 2] Vs
%= answer 1
%=   Vs = 1 :: (2 :: [])
%= no more
pred values_of i:list (pair K V), o:list V.
values_of [] [].
values_of (pr K V :: M) (V :: Vs) :- values_of M Vs.

% `map_values P M N`: N is M with values of which P holds, each behind the one of M.
%? map_values (x\ y\ y is x * 2) [pr a 1, pr b 2] N
%= answer 1
%=   N = (pr a 2) :: ((pr b 4) :: [])
%= no more
pred map_values i:(V -> W -> prop), i:list (pair K V), o:list (pair K W).
map_values P [] [].
map_values P (pr K V :: M) (pr K W :: N) :- beta P V Q, beta Q W G, G, map_values P M N.

% `put_all M N L`: L is M with the values of N, which count where both have a key.
%? put_all [pr a 1, pr b 2] [pr b 3, pr c 4] L
%= answer 1
%=   L = (pr a 1) :: ((pr b 3) :: ((pr c 4) :: []))
%= no more
pred put_all i:list (pair K V), i:list (pair K V), o:list (pair K V).
put_all M [] M.
put_all M (pr K V :: N) L :- put M K V K', put_all K' N L.
