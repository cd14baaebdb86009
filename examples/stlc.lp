% The simply typed λ-calculus with products, sums and primitive recursion. The types of bound variables aren't written;
% they are found by unification. elaborator.lp has a third argument besides, which writes them into the term.
%
% The judgement is `of M A`: the term M has the type A. M is an input and A an output. A term binds its variables by the
% abstractions of the language: the identity is `lam x\ x`. Under a binder, `pi x\` makes a new name, and `=>` assumes
% its type; so there is no context in the rules, and no substitution to write.
%
% It fails where M has no type. It has one answer otherwise, the most general type: each ?N of it may be any type.
kind tm, ty type.
type nat, unit ty.
type arr, prod, sum ty -> ty -> ty.
type lam (tm -> tm) -> tm.
type app, pair tm -> tm -> tm.
type fst, snd, inl, inr, s tm -> tm.
type case tm -> (tm -> tm) -> (tm -> tm) -> tm.
type z, tt tm.
type rec tm -> tm -> (tm -> tm -> tm) -> tm.

pred of i:tm, o:ty.

% Functions.
%? of (lam f\ lam x\ app f (app f x)) A
%= answer 1
%=   A = arr (arr ?0 ?0) (arr ?0 ?0)
%= no more
of (lam F) (arr A B) :- pi x\ of x A => of (F x) B.
of (app M N) B :- of M (arr A B), of N A.

% Pairs.
%? of (lam p\ pair (snd p) (fst p)) A
%= answer 1
%=   A = arr (prod ?0 ?1) (prod ?1 ?0)
%= no more
of tt unit.
of (pair M N) (prod A B) :- of M A, of N B.
of (fst M) A :- of M (prod A B).
of (snd M) B :- of M (prod A B).

% Sums. `case M F G` goes on with F over what `inl` holds, or with G over what `inr` holds.
%? of (lam x\ case x (y\ inr y) (y\ inl y)) A
%= answer 1
%=   A = arr (sum ?0 ?1) (sum ?1 ?0)
%= no more
of (inl M) (sum A B) :- of M A.
of (inr M) (sum A B) :- of M B.
of (case M F G) C :- of M (sum A B), (pi x\ of x A => of (F x) C), (pi y\ of y B => of (G y) C).

% Numbers. `rec M N F` is N where M is `z`, and F over the number before M and over its result where M is `s ..`. The
% query is addition.
%? of (lam m\ lam n\ rec m n (p\ r\ s r)) A
%= answer 1
%=   A = arr nat (arr nat nat)
%= no more
of z nat.
of (s M) nat :- of M nat.
of (rec M N F) A :- of M nat, of N A, pi p\ pi r\ (of p nat, of r A) => of (F p r) A.

% A type that is given is checked, and one that is given in part is filled in.
%? of (lam x\ s x) (arr nat nat)
%= answer 1
%= no more
%? of (lam x\ lam y\ x) (arr nat (arr B C))
%= answer 1
%=   B = ?0
%=   C = nat
%= no more

% What has no type: a number is no function, and no type is an argument of itself.
%? of (app z z) A
%= failure
%? of (lam x\ app x x) A
%= failure

% A term with a variable in it fails too, since M is an input, which is matched and never guessed. dependent.lp types
% terms with holes, and intuitionistic.lp finds a term of a type.
%? of (s M) A
%= failure

% No fault can come here: in each rule a variable with arguments has names as its arguments, as `F x` and `F p r` have.
