% ELPI's `print` takes any number of arguments, and writes strings without quotes. Here it takes one term, and a string
% is written as it is typed.
%? print ("X" = f X)
%= "X" = (f ?0)
%= answer 1
%=   X = ?0
%= no more
%? print "one" X
%= fault: arity
