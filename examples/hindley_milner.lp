% Type inference after Hindley and Milner: types are found, and those of `let` are generalised.
%
% The judgement is `infer M A`: the term M has the type A, an output, in which each ?N may be any type. It fails where M
% has no type. `principal M S` gives the type with its variables bound, a scheme: `all a\ mono (arr a a)` is that of the
% identity.
kind tm, ty, scheme type.
type nat, bool ty.
type arr, prod ty -> ty -> ty.
type mono ty -> scheme.
type all (ty -> scheme) -> scheme.
type z, tt tm.
type s tm -> tm.
type app, pair tm -> tm -> tm.
type lam, fix (tm -> tm) -> tm.
type let tm -> (tm -> tm) -> tm.

pred infer i:tm, o:ty.
infer M A :- of [] M A.
pred principal i:tm, o:scheme.
principal M S :- of [] M A, generalise [] A S.

% `of Ms M A`: M has the type A, where Ms are the types of the variables around M that `lam` and `fix` bind. The schemes
% of all bound variables are assumed. Ms stands beside them since assumptions can be used, but not listed.
pred scheme_of i:tm, o:scheme.
pred of i:list ty, i:tm, o:ty.
of Ms X A :- name X, !, scheme_of X S, instance S A.
of Ms z nat.
of Ms (s M) nat :- of Ms M nat.
of Ms tt bool.
of Ms (pair M N) (prod A B) :- of Ms M A, of Ms N B.
of Ms (app M N) B :- of Ms M (arr A B), of Ms N A.
of Ms (lam F) (arr A B) :- pi x\ scheme_of x (mono A) => of (A :: Ms) (F x) B.
of Ms (fix F) A :- pi x\ scheme_of x (mono A) => of (A :: Ms) (F x) A.
of Ms (let M F) B :- of Ms M A, generalise Ms A S, pi x\ scheme_of x S => of Ms (F x) B.

% `instance S A`: A is the scheme S with new variables for the bound ones. `S T` would be the fault `redex`, since T has
% no value: `beta` applies an abstraction to anything.
%? instance (all a\ mono (arr a a)) A
%= answer 1
%=   A = arr ?0 ?0
%= no more
%? S = (a\ mono (arr a a)), instance (S T) A
%= fault: redex
pred instance i:scheme, o:ty.
instance (mono A) A.
instance (all S) A :- beta S T R, instance R A.

% `generalise Ms A S`: S is A with those variables bound that aren't in Ms. A variable can't become a bound name where
% it stands, since a variable from outside a `pi` never gets its name: `pi a\ V = a` fails. So A is copied under the
% `pi`, with the name in the variable's place, and the variable stays as it is. Variables are told apart by `same`,
% which gives them no value. There are no effects, so that each `let` may be generalised.
%? generalise [] (arr A (arr B A)) S
%= answer 1
%=   A = ?0
%=   B = ?1
%=   S = all (@0\ all (@1\ mono (arr @1 (arr @0 @1))))
%= no more
%? generalise [arr A nat] (arr A (arr B A)) S
%= answer 1
%=   A = ?0
%=   B = ?1
%=   S = all (@0\ mono (arr ?0 (arr @0 ?0)))
%= no more
pred generalise i:list ty, i:ty, o:scheme.
generalise Ms A S :- in_all Ms [] Es, variables Es A [] Vs, bind Vs A S.

% `variables Es A Vs Ws`: Ws is Vs behind the variables of A that are in neither Es nor Vs. A type with a constructor of
% its own has a clause here and in `copy`.
pred variables i:list ty, i:ty, i:list ty, o:list ty.
variables Es A Vs Vs :- var A, (has Es A ; has Vs A), !.
variables Es A Vs (A :: Vs) :- var A, !.
variables Es nat Vs Vs.
variables Es bool Vs Vs.
variables Es (arr A B) Vs Xs :- variables Es A Vs Ws, variables Es B Ws Xs.
variables Es (prod A B) Vs Xs :- variables Es A Vs Ws, variables Es B Ws Xs.

% `in_all Ms Vs Ws`: Ws is Vs behind the variables of the types Ms.
pred in_all i:list ty, i:list ty, o:list ty.
in_all [] Vs Vs.
in_all (A :: Ms) Vs Xs :- variables [] A Vs Ws, in_all Ms Ws Xs.

% `has Vs A`: the variable A is one of Vs.
pred has i:list ty, i:ty.
has (V :: Vs) A :- same V A, !.
has (V :: Vs) A :- has Vs A.

% `bind Vs A S`: S is A with the variables Vs bound, the first one outermost.
pred bind i:list ty, i:ty, o:scheme.
bind [] A (mono B) :- copy A B.
bind (V :: Vs) A (all S) :- pi a\ stands_for a V => bind Vs A (S a).

% `copy A B`: B is A with those names in it that stand for its variables.
pred stands_for o:ty, o:ty.
pred copy i:ty, o:ty.
copy A B :- var A, stands_for B V, same A V, !.
copy A A :- var A, !.
copy nat nat.
copy bool bool.
copy (arr A B) (arr C D) :- copy A C, copy B D.
copy (prod A B) (prod C D) :- copy A C, copy B D.

% A `let` is used at two types, and what `lam` binds is not.
%? infer (let (lam x\ x) (i\ pair (app i z) (app i tt))) A
%= answer 1
%=   A = prod nat bool
%= no more
%? infer (lam i\ pair (app i z) (app i tt)) A
%= failure
%? infer (let (lam x\ x) (i\ app i i)) A
%= answer 1
%=   A = arr ?0 ?0
%= no more

% The type of y isn't generalised, though a `let` names it.
%? infer (lam y\ let (lam x\ y) (k\ app k z)) A
%= answer 1
%=   A = arr ?0 ?0
%= no more
%? infer (lam y\ let y (w\ pair (app w z) (app w tt))) A
%= failure
%? principal (lam x\ lam y\ x) S
%= answer 1
%=   S = all (@0\ all (@1\ mono (arr @1 (arr @0 @1))))
%= no more

% In `fix f\ M` f has one type within M, so that inference ends.
%? infer (fix f\ lam x\ app f (s x)) A
%= answer 1
%=   A = arr nat ?0
%= no more
