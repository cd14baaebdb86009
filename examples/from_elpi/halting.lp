% There is no `halt`: a run ends by its last answer, and its status says how. `--answers 1` ends it at the first.
%? halt
%= fault: unknown
