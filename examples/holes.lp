% Two typings of one hole agree, whatever the names of its binders are called: a constraint rule that aligns them.
%
% The judgement is `of X T`: the term X has the type T. Here each X is a hole, so each typing waits for it.
pred of o:term, o:term.
of X T :- declare_constraint (of X T) [X].

constraint of {
  % the first typing is kept, the second one is removed once its type was unified with the first one's
  rule (of X S) \ (of Y T) > X ~ Y <=> (S = T).
}

%? (pi x\ of (H x) (A x)), (pi y\ of (H y) nat)
%= answer 1
%=   H = ?0
%=   A = @0\ nat
%=   delayed [#0] [] ?- of (?0 #0) nat
%= no more

% Holes that differ are left alone.
%? (pi x\ of (H x) A), (pi y\ of (K y) nat)
%= answer 1
%=   H = ?0
%=   A = ?1
%=   K = ?2
%=   delayed [#0] [] ?- of (?0 #0) ?1
%=   delayed [#0] [] ?- of (?2 #0) nat
%= no more

% Types that can't be one type are found at once, though the hole is still open.
%? pi x\ of (H x) bool, of (H x) nat
%= failure
