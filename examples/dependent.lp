% A small dependent type theory, in which arguments may be left out: implicit ones altogether, and others as `hole`.
%
% The judgement is `elab R M A`: the program R becomes the term M of the type A, with all arguments in it. R is an
% input, M and A are outputs. It fails where R has no type. A hole is a variable of M. Its typing waits until it has a
% value, and is checked then; what still waits at the end is shown with the answer, and is what is left to be found.
%
% Terms are `set`, the type of small types; `prod A x\ B`, the functions that take x of A to B; `iprod A x\ B`, likewise
% with an argument that is left out in programs; `lam A x\ M`, `app M N` and constants.
kind tm type.
type set, hole tm.
type prod, iprod, lam tm -> (tm -> tm) -> tm.
type app tm -> tm -> tm.
type nat, z, s, id, vec, vnil, vcons, head tm.

% The constants with their types: numbers, the identity, and lists that have their lengths in their types.
pred const i:tm, o:tm.
const nat set.
const z nat.
const s (prod nat n\ nat).
const id (iprod set a\ prod a x\ a).
const vec (prod set a\ prod nat n\ set).
const vnil (iprod set a\ app (app vec a) z).
const vcons (iprod set a\ iprod nat n\ prod a x\ prod (app (app vec a) n) v\ app (app vec a) (app s n)).
const head (iprod set a\ iprod nat n\ prod (app (app vec a) (app s n)) v\ a).

% Implicit arguments are found by unification. `head` wants a list that isn't empty.
%? elab (app id z) M A
%= answer 1
%=   M = app (app id nat) z
%=   A = nat
%= no more
%? elab (app (app vcons z) vnil) M A
%= answer 1
%=   M = app (app (app (app vcons nat) z) z) (app vnil nat)
%=   A = app (app vec nat) (app s z)
%= no more
%? elab (app head (app (app vcons z) vnil)) M A
%= answer 1
%=   M = app (app (app head nat) z) (app (app (app (app vcons nat) z) z) (app vnil nat))
%=   A = nat
%= no more
%? elab (app head vnil) M A
%= failure
pred elab i:tm, o:tm, o:tm.
elab R M A :- infer R N B, fill N B M A.

% `elab_at R A M`: the program R becomes M of the type A.
pred elab_at i:tm, i:tm, o:tm.
elab_at R A M :- elab R M B, conv B A.

% `fill M A N B`: N is M with a hole for each of its implicit arguments, and B is the type of N.
pred fill i:tm, i:tm, o:tm, o:tm.
fill M (iprod A B) N C :- !, of X A, beta B X T, fill (app M X) T N C.
fill M A M A.

% A hole that is left shows its type, and the names and assumptions that it may use. A hole that is found is gone, as
% the type of x in the second query.
%? elab (lam nat x\ app s hole) M A
%= answer 1
%=   M = lam nat (@0\ app s (?0 @0))
%=   A = prod nat (@0\ nat)
%=   delayed [#0] [of #0 nat] ?- check (?0 #0) nat
%= no more
%? elab (lam hole x\ app s x) M A
%= answer 1
%=   M = lam nat (app s)
%=   A = prod nat (@0\ nat)
%= no more
pred infer i:tm, o:tm, o:tm.
infer hole X A :- of X A.
infer X X A :- name X, of X A.
infer C C A :- const C A.
infer (lam A F) (lam B G) (prod B C) :- elab_type A B, pi x\ of x B => elab (F x) (G x) (C x).
infer (app M N) (app P Q) R :- elab M P T, function T A B, elab_at N A Q, instance B Q R.
infer (prod A B) (prod C D) set :- elab_at A set C, pi x\ of x C => elab_at (B x) set (D x).

% `elab_type R A`: the program R becomes the type A.
pred elab_type i:tm, o:tm.
elab_type hole X :- !, is_type X.
elab_type set set :- !.
elab_type (prod A B) (prod C D) :- !, elab_type A C, pi x\ of x C => elab_type (B x) (D x).
elab_type R A :- elab_at R set A.

% `of M A`: the term M has the type A, an output; `check M A`: it has the type A, which is given. Both wait where M is a
% hole. Under a `pi` what is assumed comes before these clauses; it passes a hole by, since M is an input.
%? elab (app id z) M A, of M B
%= answer 1
%=   M = app (app id nat) z
%=   A = nat
%=   B = nat
%= no more
pred of i:tm, o:tm.
of X A :- var X, !, check X A.
of C A :- const C A.
of (lam A F) (prod A B) :- is_type A, pi x\ of x A => of (F x) (B x).
of (app M N) R :- of M T, function T A B, check N A, instance B N R.
of (prod A B) set :- check A set, pi x\ of x A => check (B x) set.

pred check i:tm, i:tm.
check X A :- var X, !, declare_constraint (check X A) [X].
check M A :- of M B, conv B A.

% `is_type A`: something may have the type A. `set` is none of the small types, which have the type `set`.
pred is_type i:tm.
is_type X :- var X, !, declare_constraint (is_type X) [X].
is_type set :- !.
is_type (prod A B) :- !, is_type A, pi x\ of x A => is_type (B x).
is_type A :- check A set.

% `function T A B`: the type T is that of the functions from A to B, whose argument may be implicit. A hole of an
% unknown type that is applied takes an explicit one.
pred function i:tm, o:tm, o:tm.
function T A B :- whnf T W, product W A B.
pred product i:tm, o:tm, o:tm.
product X A B :- var X, !, X = prod A B.
product (prod A B) A B.
product (iprod A B) A B.

% `instance B N R`: R is the type B of the results, at the argument N. An equation `R = B N` has two faults in store:
% the fault `redex`, where B is an abstraction and N a hole; and the fault `pattern`, where B isn't known yet, as soon
% as `B N` is compared. So it waits for B, and then applies it by `beta`.
%? elab (app hole z) M A
%= answer 1
%=   M = app ?0 z
%=   A = ?1
%=   delayed [] [] ?- check ?0 (prod nat ?2)
%=   delayed [] [] ?- instance ?2 z ?1
%= no more
%? of (app X z) A, X = s
%= answer 1
%=   X = s
%=   A = nat
%= no more
%? R = B z, R = nat
%= fault: pattern
pred instance i:(tm -> tm), i:tm, o:tm.
instance B N R :- var B, !, declare_constraint (instance B N R) [B].
instance B N R :- beta B N T, conv T R.

% `conv A B`: A and B are one type, up to β. Where one is a hole that is applied, as `app X nat`, no guess is made: it
% waits for the hole. The query has a type that has to be reduced.
%? elab (app (lam (app (lam set a\ a) nat) x\ app s x) z) M A
%= answer 1
%=   M = app (lam (app (lam set (@0\ @0)) nat) (app s)) z
%=   A = nat
%= no more
%? conv (app X nat) nat
%= answer 1
%=   X = ?0
%=   delayed [] [] ?- conv (app ?0 nat) nat
%= no more
%? conv (app X nat) nat, X = lam set a\ a
%= answer 1
%=   X = lam set (@0\ @0)
%= no more
pred conv i:tm, i:tm.
conv A B :- whnf A C, whnf B D, agree C D.

pred agree i:tm, i:tm.
agree A A :- !.
agree A B :- (var A ; var B), !, A = B.
agree A B :- (stuck A X ; stuck B X), !, declare_constraint (conv A B) [X].
agree (app M N) (app P Q) :- conv M P, conv N Q.
agree (prod A B) (prod C D) :- conv A C, pi x\ conv (B x) (D x).
agree (lam A F) (lam C G) :- pi x\ conv (F x) (G x).

% `stuck M X`: X is the hole at the head of the application M.
pred stuck i:tm, o:tm.
stuck (app X N) X :- var X, !.
stuck (app M N) X :- stuck M X.

% `whnf M W`: W is M, reduced until it shows what it is. `whnf M (lam A F)` in place of the two goals would be wrong: an
% output is unified, and a hole M would become an abstraction. `apply` has W for an input, and fails on a hole.
pred whnf i:tm, o:tm.
whnf (app M N) R :- whnf M W, apply W N S, !, whnf S R.
whnf M M.
pred apply i:tm, i:tm, o:tm.
apply (lam A F) N R :- beta F N R.

% What a hole gets is checked. But two typings of one hole are compared only then: that no X is both a number and a
% small type isn't seen before. To compare them is what constraint rules are for.
%? of (app s X) A, X = nat
%= failure
%? check X nat, check X set
%= answer 1
%=   X = ?0
%=   delayed [] [] ?- check ?0 nat
%=   delayed [] [] ?- check ?0 set
%= no more
%? check X nat, check X set, X = z
%= failure
