% Unification hints by constraint rules: the structure behind an operation is found from the type that it is used at.
%
% The judgement is `elab R M A`: the program R becomes the term M of the type A, in which each `mul` has the monoid that
% it belongs to. The equation `carrier X = A`, X being a monoid that isn't known, has no most general solution, so it
% waits for X, as `conv (carrier X) A`. A rule is a hint: it gives X as soon as A shows which it is.
kind tm type.
type nat, z, s tm.
type prod, pair, app tm -> tm -> tm.
type mul tm -> tm -> tm.
type op tm -> tm -> tm -> tm.
type carrier tm -> tm.
type nat_monoid tm.
type prod_monoid tm -> tm -> tm.

% Each rule removes what waits, and its body finds X. The second one has a hint for each part.
constraint conv {
  rule \ (conv (carrier X) nat) | var X <=> (X = nat_monoid).
  rule \ (conv (carrier X) (prod A B)) | var X <=> (X = prod_monoid Y Z, conv (carrier Y) A, conv (carrier Z) B).
}

%? elab (mul z z) M A
%= answer 1
%=   M = op nat_monoid z z
%=   A = nat
%= no more
%? elab (mul (pair z z) (pair z z)) M A
%= answer 1
%=   M = op (prod_monoid nat_monoid nat_monoid) (pair z z) (pair z z)
%=   A = prod nat nat
%= no more
pred elab i:tm, o:tm, o:tm.
elab z z nat.
elab (pair M N) (pair P Q) (prod A B) :- elab M P A, elab N Q B.
elab (mul M N) (op X P Q) A :- conv (carrier X) A, elab M P A, elab N Q A.
elab (lam F) (lam G) (arr A B) :- pi x\ elab x x A => elab (F x) (G x) B.

% Where the type isn't known yet the choice is still open, and waits with the answer.
%? elab (lam x\ mul x x) M A
%= answer 1
%=   M = lam (@0\ op (?0 @0) @0 @0)
%=   A = arr ?1 ?1
%=   delayed [#0] [elab #0 #0 ?1] ?- conv (carrier (?0 #0)) ?1
%= no more
%? elab (lam x\ mul x z) M A
%= answer 1
%=   M = lam (@0\ op nat_monoid @0 z)
%=   A = arr nat nat
%= no more

% `conv A B`: A and B are one type.
pred conv i:tm, o:tm.
conv (carrier X) A :- var X, !, declare_constraint (conv (carrier X) A) [X].
conv (carrier nat_monoid) nat.
conv (carrier (prod_monoid G H)) (prod A B) :- conv (carrier G) A, conv (carrier H) B.
