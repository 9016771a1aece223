% query: route(bern,chur,Towns,Kilometres)
% The shortest way between two towns, found from the nearest town outwards: the ways that are begun are kept in the order of
% their lengths, the shortest is gone on with, and a town that was left once is not entered again.

:- entry(route(ground,ground,out,out)).

road(geneva,lausanne,64).
road(lausanne,bern,102).
road(lausanne,sion,93).
road(sion,brig,53).
road(bern,basel,97).
road(bern,luzern,111).
road(bern,zurich,125).
road(bern,brig,113).
road(basel,zurich,87).
road(zurich,luzern,52).
road(zurich,chur,119).
road(zurich,st_gallen,85).
road(st_gallen,chur,104).
road(luzern,bellinzona,139).
road(brig,bellinzona,133).
road(bellinzona,chur,117).

between(A,B,Length) :- road(A,B,Length).
between(A,B,Length) :- road(B,A,Length).

route(From,To,Towns,Length) :-
    search([way(0,From,[])],[],To,Backwards,Length),
    reverse(Backwards,[],Towns).

search([way(Length,To,Before)|_],_,To,[To|Before],Length) :- !.
search([way(_,Town,_)|Ways],Left,To,Towns,Length) :-
    member(Town,Left), !,
    search(Ways,Left,To,Towns,Length).
search([way(Sofar,Town,Before)|Ways],Left,To,Towns,Length) :-
    roads(Town,Left,Roads),
    begin_ways(Roads,Sofar,[Town|Before],Ways,Next),
    search(Next,[Town|Left],To,Towns,Length).

% The roads from a town to towns that were not left yet, one after the other: without a built-in that collects answers, each
% is asked for with the list of those that are known.
roads(Town,Left,Roads) :- further_roads(Town,Left,[],Roads).

further_roads(Town,Left,Known,Roads) :-
    between(Town,Next,Length),
    \+ member(Next,Left),
    \+ member(to(Next,Length),Known), !,
    further_roads(Town,Left,[to(Next,Length)|Known],Roads).
further_roads(_,_,Roads,Roads).

begin_ways([],_,_,Ways,Ways).
begin_ways([to(Town,Length)|Roads],Sofar,Before,Ways,Next) :-
    Total is Sofar + Length,
    insert(Ways,way(Total,Town,Before),More),
    begin_ways(Roads,Sofar,Before,More,Next).

insert([],New,[New]).
insert([way(A,T,B)|Ways],way(C,U,D),[way(C,U,D),way(A,T,B)|Ways]) :- C < A, !.
insert([Way|Ways],New,[Way|More]) :- insert(Ways,New,More).

member(X,[X|_]).
member(X,[_|Rest]) :- member(X,Rest).

reverse([],Done,Done).
reverse([X|Rest],Sofar,Done) :- reverse(Rest,[X|Sofar],Done).
