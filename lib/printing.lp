% Printing of terms. Each printed line is written at once, and going back doesn't take it back.

% `print_list Xs`: writes each element of Xs on a line.
%? print_list [a, f X Y]
%= a
%= f ?0 ?1
%= answer 1
%=   X = ?0
%=   Y = ?1
%= no more
pred print_list i:list A.
print_list [].
print_list (X :: Xs) :- print X, print_list Xs.

% `print_named N T`: writes T behind its name.
%? print_named "the type" (arr nat nat)
%= "the type" = (arr nat nat)
%= answer 1
%= no more
pred print_named i:A, i:B.
print_named N T :- print (N = T).

% `print_body F`: writes the body of an abstraction, with a new name in the place of the bound one.
%? print_body (x\ f x x)
%= f #0 #0
%= answer 1
%= no more
pred print_body i:(A -> B).
print_body F :- pi x\ print_applied F x.

% `print_applied F X`: writes F applied to X.
%? print_applied (x\ f x x) (g a)
%= f (g a) (g a)
%= answer 1
%= no more
pred print_applied i:(A -> B), i:A.
print_applied F X :- beta F X T, print T.

% `print_all P`: writes each X of which P holds. No variable gets a value, and the memory of the search is given back.
%? print_all (x\ (x = a ; x = f Y))
%= a
%= f ?0
%= answer 1
%=   Y = ?0
%= no more
pred print_all i:(A -> prop).
print_all P :- beta P X G, G, print X, fail.
print_all P.

% `traced G`: runs G, and writes when it is called, has an answer, is taken up again, and fails.
%? traced (X = a ; X = b), lt 0 1
%= calls ((?0 = a) ; (?0 = b))
%= exits ((a = a) ; (a = b))
%= answer 1
%=   X = a
%= again ((a = a) ; (a = b))
%= exits ((b = a) ; (b = b))
%= answer 2
%=   X = b
%= again ((b = a) ; (b = b))
%= fails ((?0 = a) ; (?0 = b))
%= no more
pred traced i:prop.
traced G :- print (calls G), (G, (print (exits G) ; print (again G), fail) ; print (fails G), fail).
