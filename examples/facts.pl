% query: p
:- entry(p).
p.
q.   % of another name
p.
