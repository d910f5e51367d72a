%% What of OTP's behaviours asks the machine for what the explorer does not have, in the place of the function that asks: the
%% rest of these modules is taken as it is installed. Nothing is logged, and there is one node.
-module(otp_functions).
-compile([export_all, nowarn_export_all]).

%% ---- proc_lib

%% To ask for one's own name would be a step of each process that begins, so '$ancestors' of its children has its pid.
'proc_lib:get_my_name'() -> self().

%% Names for arguments that are not known would be atoms that no program has.
'proc_lib:make_dummy_args'(0, Names) -> Names;
'proc_lib:make_dummy_args'(_, Names) -> proc_lib:'names for arguments'(Names).

%% The name that Erlang gives a fun is not known, so there is no '$initial_call'.
'proc_lib:init_p'(Parent, Ancestors, F) when is_function(F) ->
    put('$ancestors', [Parent | Ancestors]),
    try F()
    catch Class:Reason -> 'proc_lib:exit_p'(Class, Reason, [])
    end.

%% As OTP has it. Its own function has the names of behaviours as values, so that computed calls would reach all of these.
'proc_lib:trans_init'(gen, init_it, [gen_server, _, _, supervisor = Behaviour, {_, Module, _}, _]) -> {Behaviour, Module, 1};
'proc_lib:trans_init'(gen, init_it, [gen_server, _, _, _, supervisor = Behaviour, {_, Module, _}, _]) -> {Behaviour, Module, 1};
'proc_lib:trans_init'(gen, init_it, [gen_server, _, _, supervisor_bridge = Behaviour, [Module | _], _]) -> {Behaviour, Module, 1};
'proc_lib:trans_init'(gen, init_it, [gen_server, _, _, _, supervisor_bridge = Behaviour, [Module | _], _]) -> {Behaviour, Module, 1};
'proc_lib:trans_init'(gen, init_it = Function, [gen_event = Behaviour | _]) -> {Behaviour, Function, 6};
'proc_lib:trans_init'(gen, init_it, [_, _, _, Module, _, _]) when is_atom(Module) -> {Module, init, 1};
'proc_lib:trans_init'(gen, init_it, [_, _, _, _, Module | _]) when is_atom(Module) -> {Module, init, 1};
'proc_lib:trans_init'(M, F, A) -> {M, F, length(A)}.

%% No crash is reported. The report would have names of arguments too.
'proc_lib:exit_p'(error, Reason, _) -> exit({Reason, []});
'proc_lib:exit_p'(exit, Reason, _) -> exit(Reason);
'proc_lib:exit_p'(throw, Reason, _) -> exit({{nocatch, Reason}, []}).

%% The stack of a process that hibernates is not dropped, but it ends where the function returns. That one begins at once, and
%% not with the next message, so a server that hibernates is suspended as another one.
'erlang:hibernate'(M, F, A) -> apply(M, F, A), exit(normal).
'proc_lib:hibernate'(M, F, A) -> proc_lib:wake_up(M, F, A), exit(normal).
'sys:handle_system_msg'(Message, From, Parent, Module, Debug, Misc, _) -> sys:handle_system_msg(Message, From, Parent, Module, Debug, Misc).

%% ---- there is one node

'gen_server:do_multi_call'([Node], Name, Request, infinity) ->
    case Node =:= node() of
        true ->
            try gen:call(Name, '$gen_call', Request, infinity) of
                {ok, Reply} -> {[{Node, Reply}], []}
            catch exit:_ -> {[], [Node]}
            end;
        false -> {[], [Node]}
    end;
'gen_server:do_multi_call'(_, Name, _, _) -> gen_server:'multi_call of several nodes, or with a time'(Name).

%% ---- nothing is written

'logger:allow'(_, _) -> false.
'gen_server:error_info'(_, _, _, _, _, _, _, _) -> ok.
'gen_statem:error_info'(_, _, _, _, _, _, _) -> ok.
'gen_event:report_error'(_, _, _, _, _) -> ok.
'supervisor:report_progress'(_, _) -> ok.

%% Stacks are empty; beside the name of a process and how many messages it has the rest is not read.
'erlang:process_info'(Pid, current_stacktrace) when is_pid(Pid) -> {current_stacktrace, []};
'erlang:process_info'(Pid, Item) when Item =:= registered_name; Item =:= message_queue_len -> process_info(Pid, Item);
'erlang:process_info'(Pid, Item) -> erlang:'process_info/2 of another item'(Pid, Item).

%% ---- applications are configured by --env and by the files of applications; none is started

'application:get_env'(Key) when is_atom(Key) -> undefined.
'application:get_env'(Application, Key) when is_atom(Application), is_atom(Key) -> 'application environment'(Application, Key).
'application:get_env'(Application, Key, Default) ->
    case 'application environment'(Application, Key) of
        {ok, Value} -> Value;
        undefined -> Default
    end.
'application:get_all_env'(Application) -> 'application environment'(Application).
'application:get_application'() -> undefined.
'application:get_application'(_) -> undefined.

%% These two are made of what is configured (src/environment.erl).
'application environment'(_, _) -> undefined.
'application environment'(_) -> [].

%% ---- one node

'net_kernel:monitor_nodes'(_) -> ok.
'net_kernel:monitor_nodes'(_, _) -> ok.
'erlang:monitor_node'(_, _) -> true.
'init:get_argument'(_) -> error.
