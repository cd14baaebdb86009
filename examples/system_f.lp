% System F, typed in both directions. `synth M A` finds the type A of the term M; `check M A` checks M against A. M is
% an input of both, and A an output of the first and an input of the second. Functions are checked, and what is applied
% is found, so types are written only where a function is applied at once: `ann M A` is M with its type A.
%
% `synth` fails on a function without a type, and both fail where M has no such type. There is one answer at most. Types
% that differ in their bound names alone are one, as all terms of the language are.
kind tm, ty type.
type nat ty.
type arr ty -> ty -> ty.
type all (ty -> ty) -> ty.
type z tm.
type s tm -> tm.
type app tm -> tm -> tm.
type lam (tm -> tm) -> tm.
type let tm -> (tm -> tm) -> tm.
type tlam (ty -> tm) -> tm.
type tapp tm -> ty -> tm.
type inst tm -> tm.
type ann tm -> ty -> tm.

% `is_type A`: A is a type. The type variables in scope are names, for which it is assumed. A type that is still to be
% found, below, is a variable.
pred is_type i:ty.
is_type A :- var A, !.
is_type nat.
is_type (arr A B) :- is_type A, is_type B.
is_type (all B) :- pi a\ is_type a => is_type (B a).

% Abstractions are checked, `tlam a\ M` against `all a\ A`. All else is found, and then compared.
%? check (tlam a\ lam x\ x) (all b\ arr b b)
%= answer 1
%= no more
%? check (tlam a\ lam x\ x) (all a\ arr a nat)
%= failure
pred check i:tm, i:ty.
check (lam F) (arr A B) :- !, pi x\ synth x A => check (F x) B.
check (tlam F) (all B) :- !, pi a\ is_type a => check (F a) (B a).
check (let M F) B :- !, synth M A, pi x\ synth x A => check (F x) B.
check M A :- synth M A.

pred synth i:tm, o:ty.
synth (ann M A) A :- is_type A, check M A.
synth z nat.
synth (s M) nat :- check M nat.
synth (app M N) B :- synth M (arr A B), check N A.

% `tapp M A` is M at the type A. The rule can't be written as `synth (tapp M A) (B A) :- synth M (all B).`, for in a
% head a variable has no arguments but bound names: that is refused as `S4`. So the type stands in the body. There
% `C = B A` would do for each A that is written. `beta B A C` also does where A is still to be found.
%? synth (tapp (ann (tlam a\ lam x\ x) (all a\ arr a a)) nat) A
%= answer 1
%=   A = arr nat nat
%= no more
synth (tapp M A) C :- is_type A, synth M (all B), beta B A C.

% `inst M` is M at a type that is left out, and found by unification. The rule makes a variable A for it, where B is an
% abstraction: with `C = B A` the query below would be the fault `redex`, since an abstraction waits for its argument's
% head, and A has none yet.
%? synth (app (inst (ann (tlam a\ lam x\ x) (all a\ arr a a))) z) A
%= answer 1
%=   A = nat
%= no more
%? B = (a\ arr a a), C = B A, C = arr nat D
%= fault: redex
%? B = (a\ arr a a), beta B A C, C = arr nat D
%= answer 1
%=   B = @0\ arr @0 @0
%=   A = nat
%=   C = arr nat nat
%=   D = nat
%= no more
synth (inst M) C :- synth M (all B), beta B A C.

% A type may be a type's argument: self application has a type, which no rule without `all` gives.
%? check (lam x\ app (tapp x (all a\ arr a a)) x) (arr (all a\ arr a a) (all a\ arr a a))
%= answer 1
%= no more

% The number two of Church, used at the type `nat`.
%? two _M, check (let _M n\ app (app (tapp n nat) (lam x\ s x)) z) nat
%= answer 1
%= no more
pred two o:tm.
two (ann (tlam a\ lam f\ lam x\ app f (app f x)) (all a\ arr (arr a a) (arr a a))).

% A function without its type isn't found, and an argument of another type fails.
%? synth (app (lam x\ x) z) A
%= failure
%? synth (app (ann (lam x\ x) (arr nat nat)) (tlam a\ z)) A
%= failure

% An unknown type of what is applied to a type is the fault `pattern`: `all B` is then made for T, and `B nat = nat` has
% the solutions `B = (a\ nat)` and `B = (a\ a)`, of which none is the most general. Write the type of x.
%? check (lam x\ tapp x nat) (arr T nat)
%= fault: pattern
%? check (lam x\ tapp x nat) (arr (all a\ a) nat)
%= answer 1
%= no more
