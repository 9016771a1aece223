% Runs a program as ../swi.pl does, but gives up where it goes on too long, and where SWI-Prolog ends otherwise than by itself. With
% `error` as third word, a unification that would put a variable into itself gives up too: from there on this language promises
% no bytes. The status is then 50 or more.

:- prolog_load_context(directory, Here), atom_concat(Here, '/../swi.pl', File), consult(File).

bounded :-
    current_prolog_flag(argv, [Program, Query, OccursCheck]),
    set_prolog_flag(stack_limit, 400000000),
    set_prolog_flag(occurs_check, OccursCheck),
    catch(call_with_inference_limit(run_program(Program, Query), 3000000, _), _, halt(51)),
    halt(50).
