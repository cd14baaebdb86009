% Lists. No predicate is declared, so that each argument may be an input or an output.
append [] Ys Ys.
append (X :: Xs) Ys (X :: Zs) :- append Xs Ys Zs.

reverse Xs Ys :- shunt Xs [] Ys.
shunt [] Ys Ys.
shunt (X :: Xs) Ys Zs :- shunt Xs (X :: Ys) Zs.

member X (X :: _).
member X (_ :: Xs) :- member X Xs.

% `map P Xs Ys`: P holds of each element of Xs with that of Ys.
map P [] [].
map P (X :: Xs) (Y :: Ys) :- P X Y, map P Xs Ys.
