parent anna bert.
parent bert cora.
elder :- parent anna bert, parent bert cora.
