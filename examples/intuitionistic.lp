% A prover for intuitionistic propositional logic, which ends on every formula.
%
% `theorem A M`: the formula A has the proof M. A is an input; M is an output, a term of the λ-calculus, as stlc.lp has
% it, with `abort M` for what follows from the absurd. It has one answer, the first proof that is found, and fails where
% A has no proof. A formula is an atom, `at p`, or made by `imp`, `and`, `or` and `false`; `imp A false` is the
% negation.
%
% The rules are those of the sequent calculus without contraction (Vorob'ev, Hudelmaier, Dyckhoff): where a hypothesis
% is used it is replaced by what it gives, so that sequents get smaller and the search ends. The usual rule for an
% implication on the left keeps the implication, and a search by it may go round for ever.
kind prop, pf, hyp type.
type at A -> prop.
type imp, and, or prop -> prop -> prop.
type false prop.
type has pf -> prop -> hyp.
type lam (pf -> pf) -> pf.
type app, pair pf -> pf -> pf.
type fst, snd, inl, inr, abort pf -> pf.
type case pf -> (pf -> pf) -> (pf -> pf) -> pf.

%? theorem (imp (at p) (imp (at q) (at p))) M
%= answer 1
%=   M = lam (@0\ lam (@1\ @0))
%= no more
%? theorem (imp (imp (at p) (imp (at q) (at r))) (imp (imp (at p) (at q)) (imp (at p) (at r)))) M
%= answer 1
%=   M = lam (@0\ lam (@1\ lam (@2\ app (app @0 @2) (app @1 @2))))
%= no more
%? theorem (imp (or (at p) (at q)) (or (at q) (at p))) M
%= answer 1
%=   M = lam (@0\ case @0 inr inl)
%= no more
pred theorem i:prop, o:pf.
theorem A M :- prove [] [] A M, !.

% `prove Hs Is A M`: M is a proof of A from the hypotheses Hs, which are still to be taken apart, the implications Is,
% and the atoms that are assumed. `has M A` is the hypothesis A with M for its proof. Hs and Is are lists, since they
% lose what is used. An atom is never lost, so that it may be assumed, by `=>`.
pred known o:pf, o:A.
pred prove i:list hyp, i:list hyp, i:prop, o:pf.

% Rules on the right that lose nothing. The proof of an implication is an abstraction over the name x of a proof of A.
prove Hs Is (imp A B) (lam F) :- !, pi x\ prove (has x A :: Hs) Is B (F x).
prove Hs Is (and A B) (pair M N) :- !, prove Hs Is A M, prove Hs Is B N.

% Rules on the left that lose nothing: each hypothesis is taken apart until atoms and implications are left.
prove (has M (at P) :: Hs) Is A N :- !, known M P => prove Hs Is A N.
prove (has M (and B C) :: Hs) Is A N :- !, prove (has (fst M) B :: has (snd M) C :: Hs) Is A N.
prove (has M (or B C) :: Hs) Is A (case M F G) :- !,
  (pi x\ prove (has x B :: Hs) Is A (F x)), (pi y\ prove (has y C :: Hs) Is A (G y)).
prove (has M false :: Hs) Is false M :- !.
prove (has M false :: Hs) Is A (abort M) :- !.

% An implication is taken apart by what is left of its arrow. One from the absurd is of no use. The functions that come
% of it are applied below, so that a proof isn't normal.
prove (has M (imp (and B C) D) :: Hs) Is A N :- !,
  prove (has (lam x\ lam y\ app M (pair x y)) (imp B (imp C D)) :: Hs) Is A N.
prove (has M (imp (or B C) D) :: Hs) Is A N :- !,
  prove (has (lam x\ app M (inl x)) (imp B D) :: has (lam y\ app M (inr y)) (imp C D) :: Hs) Is A N.
prove (has M (imp false B) :: Hs) Is A N :- !, prove Hs Is A N.
prove (has M (imp B C) :: Hs) Is A N :- prove Hs (has M (imp B C) :: Is) A N.

% All is taken apart. An implication from a known atom gives what is right of its arrow, and loses nothing either.
prove [] Is (at P) M :- known M P, !.
prove [] Is A N :- select (has M (imp (at P) B)) Is Js, known K P, !, prove [has (app M K) B] Js A N.

% Choices: a side of a disjunction, or an implication from an implication. For the latter, `imp B C` is to be proved,
% and in that proof the hypothesis gives `imp C D` alone.
prove [] Is (or A B) (inl M) :- prove [] Is A M.
prove [] Is (or A B) (inr M) :- prove [] Is B M.
prove [] Is A N :-
  select (has M (imp (imp B C) D)) Is Js,
  prove [has (lam y\ app M (lam x\ y)) (imp C D)] Js (imp B C) K,
  prove [has (app M K) D] Js A N.

% `select H Hs Js`: H is one of Hs, and Js is the others.
pred select o:hyp, i:list hyp, o:list hyp.
select H (H :: Hs) Hs.
select H (K :: Hs) (K :: Js) :- select H Hs Js.

% What needs an implication twice: the negation of the negation of the excluded middle. In its proof `lam (app K)` is
% `lam x\ app K x`, since terms are printed without such an x. The excluded middle itself and the law of Peirce have no
% proof, and the search ends.
%? theorem (imp (imp (or (at p) (imp (at p) false)) false) false) M
%= answer 1
%=   M = lam (@0\ app (lam (@1\ app @0 (inr @1))) (lam (app (lam (@1\ app @0 (inl @1))))))
%= no more
%? theorem (or (at p) (imp (at p) false)) M
%= failure
%? theorem (imp (imp (imp (at p) (at q)) (at p)) (at p)) M
%= failure

% Atoms have `at`, so that the rules tell them by their heads; a rule for any other formula would want a test that it is
% none of the four. A formula with a variable in it fails, since formulas are inputs.
%? theorem (imp (at p) X) M
%= failure

% The language's own goals are such formulas too, and its search is a prover, which gives no proofs: `=>` assumes, `pi`
% takes a new name. It goes depth first and keeps what it uses, so it may go on for ever, as for `(p :- p) => p`.
%? (pi X\ mortal X :- man X) => man socrates => mortal socrates
%= answer 1
%= no more
%? pi x\ (pi X\ mortal X :- man X) => man x => mortal socrates
%= failure

% A goal that is a variable when it runs is the fault `flex-goal`, and an assumption that is one the fault
% `flex-clause`. Give it a value before, or let the goal wait for it: it keeps what is assumed where it stands.
%? p a => G
%= fault: flex-goal
%? D => p a
%= fault: flex-clause
%? p a => declare_constraint G [G], G = p X
%= answer 1
%=   G = p a
%=   X = a
%= no more
