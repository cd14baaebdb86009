% In ELPI a call of a predicate with no clause fails. Here it is the fault `unknown`, so that a misspelt word is found;
% a `pred` says that none is right.
pred rare i:tm.
%? rare a
%= failure
%? raer a
%= fault: unknown
