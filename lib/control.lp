% Goals of goals. A cut inside a goal that is an argument is one of the clause that runs it, below.

% `not G`: G fails. No variable gets a value.
%? not (a = b)
%= answer 1
%= no more
%? not (X = b)
%= failure
pred not i:prop.
not G :- G, !, fail.
not G.

% `once G`: the first answer of G alone.
%? once (X = a ; X = b)
%= answer 1
%=   X = a
%= no more
pred once i:prop.
once G :- G, !.

% `ignore G`: the first answer of G, or none, and succeeds.
%? ignore (a = b)
%= answer 1
%= no more
pred ignore i:prop.
ignore G :- G, !.
ignore G.

% `if C G H`: G behind the first answer of C, or H where C has none.
%? if (lt 1 2) (X = yes) (X = no)
%= answer 1
%=   X = yes
%= no more
pred if i:prop, i:prop, i:prop.
if C G H :- C, !, G.
if C G H :- H.

% `differ S T`: S and T aren't equal as they stand.
%? differ (f X) (f Y)
%= answer 1
%=   X = ?0
%=   Y = ?1
%= no more
%? differ (f X) (f X)
%= failure
pred differ i:A, i:B.
differ S T :- same S T, !, fail.
differ S T.

% `le M N`: the integer M is at most N.
%? le 2 2
%= answer 1
%= no more
pred le i:int, i:int.
le M N :- lt N M, !, fail.
le M N.

% `repeat`: succeeds again and again.
%? once (repeat, X = a)
%= answer 1
%=   X = a
%= no more
pred repeat.
repeat.
repeat :- repeat.
