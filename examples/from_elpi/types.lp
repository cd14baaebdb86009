% `run` reads `kind` and `type` lines and the types of a `pred`, and checks numbers of arguments alone; `check` refuses this.
kind nat type.
type z nat.
pred double i:nat, o:nat.
double z "no nat at all".
%? double z N
%= answer 1
%=   N = "no nat at all"
%= no more
%? G = double, G z
%= fault: arity
