% query: diagnose([hears(clicking),when(pedalling),chain_stretch(12),brake_pad(1),spokes(loose)],Known)
% A rule system with forward chaining: a rule whose conditions are all known adds its conclusion, until no rule adds anything.
% Each rule that fires is written down. A condition `such_that` compares numbers in place of looking among what is known.

:- entry(diagnose(ground,out)).

diagnose(Known,All) :-
    rule(Name,Conditions,Conclusion),
    hold(Conditions,Known),
    \+ among(Conclusion,Known), !,
    write(Name), write(': '), write(Conclusion), nl,
    diagnose([Conclusion|Known],All).
diagnose(Known,Known).

rule(worn_chain,     [chain_stretch(Tenths), such_that(Tenths > 10)],          replace(chain)).
rule(worn_cassette,  [replace(chain), chain_stretch(Tenths), such_that(Tenths > 15)], replace(cassette)).
rule(bottom_bracket, [hears(clicking), when(pedalling)],                       inspect(bottom_bracket)).
rule(wheel_bearing,  [hears(clicking), when(coasting)],                        inspect(hub)).
rule(thin_pads,      [brake_pad(Millimetres), such_that(Millimetres < 2)],     replace(brake_pads)).
rule(wobble,         [spokes(loose)],                                          true_up(wheel)).
rule(rim_wear,       [true_up(wheel), replace(brake_pads)],                    inspect(rim)).
rule(drive_first,    [replace(chain), inspect(bottom_bracket)],                order(chain,bottom_bracket)).
rule(not_safe,       [inspect(rim)],                                           do_not_ride).

hold([],_).
hold([Condition|Conditions],Known) :- holds(Condition,Known), hold(Conditions,Known).

holds(such_that(A > B),_) :- !, A > B.
holds(such_that(A < B),_) :- !, A < B.
holds(Condition,Known) :- among(Condition,Known).

among(X,[X|_]).
among(X,[_|Rest]) :- among(X,Rest).
