% Where a value would have a name that its variable can't have, below a variable that is no pattern, ELPI goes on. Here
% it is the fault `scope`.
%? pi x\ X = F a x
%= fault: scope
%? F = (y\ z\ y), pi x\ X = F a x
%= answer 1
%=   F = @0\ @1\ @0
%=   X = a
%= no more
