% A small functional language, run call by value: integers, truth values, functions, `let`, recursion and lists.
%
% The judgement is `eval M V`: the program M comes to the value V. M is an input, V an output. A program binds its
% variables by the abstractions of the language, so that calling a function is applying an abstraction to a value:
% `F W`. There are no environments and no substitution to write, and no variable is captured.
%
% It has one answer at most. It fails where the program goes wrong, as where a number is applied. A program that never
% ends runs till the steps are used up, which ends in `out of steps`; `--steps` gives more.
kind tm type.
type int int -> tm.
type plus, minus, times, less tm -> tm -> tm.
type tt, ff tm.
type if tm -> tm -> tm -> tm.
type lam, fix (tm -> tm) -> tm.
type app tm -> tm -> tm.
type let tm -> (tm -> tm) -> tm.
type nil tm.
type cons tm -> tm -> tm.
type match tm -> tm -> (tm -> tm -> tm) -> tm.

pred eval i:tm, o:tm.

% Functions, and `let`. A value comes to itself, since the values that are put into a body are looked at again.
%? eval (let (int 2) (x\ app (lam y\ plus x y) (int 3))) V
%= answer 1
%=   V = int 5
%= no more
%? eval (app (lam x\ lam y\ x) (int 1)) V
%= answer 1
%=   V = lam (@0\ int 1)
%= no more
eval (lam F) (lam F).
eval (app M N) V :- eval M (lam F), eval N W, eval (F W) V.
eval (let M F) V :- eval M W, eval (F W) V.

% Recursion: `fix f\ M` is M with itself in the place of f.
%? factorial _F, eval (app _F (int 10)) V
%= answer 1
%=   V = int 3628800
%= no more
pred factorial o:tm.
factorial (fix f\ lam n\ if (less n (int 1)) (int 1) (times n (app f (minus n (int 1))))).

eval (fix F) V :- eval (F (fix F)) V.

% Integers and truth values. `less` asks for both numbers before it compares them.
eval (int N) (int N).
eval (plus M N) (int K) :- eval M (int I), eval N (int J), K is I + J.
eval (minus M N) (int K) :- eval M (int I), eval N (int J), K is I - J.
eval (times M N) (int K) :- eval M (int I), eval N (int J), K is I * J.
eval tt tt.
eval ff ff.
eval (less M N) V :- eval M (int I), eval N (int J), compare I J V.
eval (if M N P) V :- eval M B, choose B N P Q, eval Q V.

pred compare i:int, i:int, o:tm.
compare I J tt :- lt I J, !.
compare I J ff.
pred choose i:tm, i:tm, i:tm, o:tm.
choose tt M N M.
choose ff M N N.

% Lists. `match L M F` is M where L is empty, and else F over the first element and the rest.
%? map _M, eval (app (app _M (lam x\ times x x)) (cons (int 1) (cons (int 2) nil))) V
%= answer 1
%=   V = cons (int 1) (cons (int 4) nil)
%= no more
pred map o:tm.
map (fix m\ lam f\ lam l\ match l nil (x\ xs\ cons (app f x) (app (app m f) xs))).

eval nil nil.
eval (cons M N) (cons V W) :- eval M V, eval N W.
eval (match L M F) V :- eval L W, step W M F P, eval P V.

% The last clause can't be `step (cons V W) M F (F V W).`: in a head a variable has no arguments but bound names, and
% anything else is refused as `S4`. So the applied abstraction stands in the body.
pred step i:tm, i:tm, i:(tm -> tm -> tm), o:tm.
step nil M F M.
step (cons V W) M F P :- P = F V W.

% A program that goes wrong.
%? eval (app (int 1) (int 2)) V
%= failure
%? eval (plus (int 1) tt) V
%= failure

% A program with a variable in it fails where the variable is looked at, since M is an input. So `F W` above is never
% stuck: W is a value, with a constant at its head. An abstraction that is applied to a variable without a value is
% stuck, and looking at it is the fault `redex`. That may come in a judgement that hands on what isn't evaluated, as
% call by name does. `beta` is the way round it.
%? eval (app (lam x\ plus x x) X) V
%= failure
%? F = (x\ plus x x), eval (F X) V
%= fault: redex
%? F = (x\ plus x x), beta F X M, X = int 2, eval M V
%= answer 1
%=   F = @0\ plus @0 @0
%=   X = int 2
%=   M = plus (int 2) (int 2)
%=   V = int 4
%= no more
