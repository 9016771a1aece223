% query: crossing(Plan)
% A farmer has to bring a wolf, a goat and a cabbage over a river in a boat that holds one of them beside the farmer. Alone
% with each other, the wolf eats the goat and the goat eats the cabbage. The plans are searched breadth first, so that the
% shortest come first, and the search stops at the length of the first ones.

:- entry(crossing(out)).

% A state says for each of the four on which bank it is.
crossing(Plan) :-
    shortest([way(state(left,left,left,left),[])],Plans),
    member(Backwards,Plans),
    reverse(Backwards,[],Plan).

% From all ways of one length: those that have arrived, or else the search among the ways that are one crossing longer.
shortest(Ways,Plans) :-
    arrived(Ways,Plans),
    Plans = [_|_], !.
shortest(Ways,Plans) :-
    Ways = [_|_],
    longer(Ways,Next),
    shortest(Next,Plans).

arrived([],[]).
arrived([way(state(right,right,right,right),Plan)|Ways],[Plan|Plans]) :- !, arrived(Ways,Plans).
arrived([_|Ways],Plans) :- arrived(Ways,Plans).

longer([],[]).
longer([Way|Ways],Next) :-
    longer(Ways,Later),
    steps([nothing,wolf,goat,cabbage],Way,Later,Next).

steps([],_,Next,Next).
steps([Load|Loads],way(State,Plan),Later,[way(New,[Load|Plan])|Next]) :-
    cross(Load,State,New),
    safe(New),
    sensible(Load,Plan), !,
    steps(Loads,way(State,Plan),Later,Next).
steps([_|Loads],Way,Later,Next) :- steps(Loads,Way,Later,Next).

% Nobody takes straight back what was just brought over.
sensible(_,[]).
sensible(Load,[Last|_]) :- Load \== Last.

cross(nothing,state(F,W,G,C),state(T,W,G,C)) :- opposite(F,T).
cross(wolf,state(F,F,G,C),state(T,T,G,C)) :- opposite(F,T).
cross(goat,state(F,W,F,C),state(T,W,T,C)) :- opposite(F,T).
cross(cabbage,state(F,W,G,F),state(T,W,G,T)) :- opposite(F,T).

opposite(left,right).
opposite(right,left).

safe(state(F,W,G,C)) :-
    ( G = F -> true ; W \== G, G \== C ).

member(X,[X|_]).
member(X,[_|Rest]) :- member(X,Rest).

reverse([],Done,Done).
reverse([X|Rest],Sofar,Done) :- reverse(Rest,[X|Sofar],Done).
