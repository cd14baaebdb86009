% Inputs are matched, as in ELPI: no variable of the goal gets a value by them.
pred weight i:metal, o:int.
weight iron 7.
weight lead 11.
%? weight iron W
%= answer 1
%=   W = 7
%= no more
%? weight M W
%= failure
