% A goal, or an assumed clause, that is headed by a variable is a fault, as ELPI's fatal errors are.
%? G
%= fault: flex-goal
%? D => true
%= fault: flex-clause
%? G = (X = a), G
%= answer 1
%=   G = a = a
%=   X = a
%= no more
