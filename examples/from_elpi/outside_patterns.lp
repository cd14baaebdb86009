% An equation outside the pattern fragment is a fault, as ELPI's fatal error, and as it no goal is delayed for it; ELPI's
% -delay-problems-outside-pattern-fragment has no like. Give the variable a value first, or apply it to names.
%? F a = b
%= fault: pattern
%? F = (x\ b), F a = b
%= answer 1
%=   F = @0\ b
%= no more
%? pi x\ F x = g x
%= answer 1
%=   F = g
%= no more
