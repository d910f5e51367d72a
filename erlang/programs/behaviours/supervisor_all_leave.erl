%% A supervisor ends by itself when its last worker that counts has ended: this one, or that one before it.
%% words: --after-timeout 5000
%% error: P ends {'result','shutdown',2}
%% error: P.2 ends 'shutdown'
-module(supervisor_all_leave).
-export([main/0, init/1]).

main() ->
    process_flag(trap_exit, true),
    {ok, Supervisor} = supervisor:start_link(?MODULE, [a, b]),
    Workers = [Pid || {_, Pid, _, _} <- supervisor:which_children(Supervisor), is_pid(Pid)],
    [supervisor_all_leave_worker:leave(Pid) || Pid <- Workers],
    receive {'EXIT', Supervisor, Reason} -> exit({result, Reason, length(Workers)}) end.

init(Names) ->
    Workers = [#{id => Name, start => {supervisor_all_leave_worker, start_link, []}, restart => temporary, significant => true}
               || Name <- Names],
    {ok, {#{auto_shutdown => all_significant}, Workers}}.
