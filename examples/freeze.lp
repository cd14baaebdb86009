% Goals that wait: `freeze X G` runs G as soon as X isn't a variable any more.
pred freeze o:t, o:o.
freeze X G :- declare_constraint G [X].

% `plus M N K`: K is M + N, as soon as both are known; it waits for one after the other.
pred plus o:int, o:int, o:int.
plus M N K :- freeze M (freeze N (K is M + N)).

% `other X Y`: X and Y are other colours; it waits until both are known.
pred colour o:c.
colour red.
colour green.
pred other o:c, o:c.
other X Y :- freeze X (freeze Y (differ X Y)).
pred differ i:c, i:c.
differ X X :- !, fail.
differ _ _.
