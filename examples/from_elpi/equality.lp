% ELPI's `S == T`, which gives no variable a value, is `same S T`.
%? same (f X) (f X)
%= answer 1
%=   X = ?0
%= no more
%? same X Y
%= failure
