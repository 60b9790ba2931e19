"""Logs with mistakes and the messages that they lead to; and short logs with their traces, written by hand from the page
examples/traces/LOGS.md."""

from typing import NamedTuple

ACCESSES = "time,cpu,operation,variable,index,value,old,expected\n"
LASTING = "begin,end,cpu,operation,variable,index,value\n"
MARKS = "time,cpu,operation\n"
KNOWN = "write, read, write-begin, write-end, read-begin, read-end, swap, add, cas, call, wait, enter, leave, answer"
NUMBER = "a number from 0 to 4294967295 is expected"
CPU = "a number from 0 to 15 is expected"
NO_COLUMNS = "line {}: no column is named time or cpu or operation; this line names the columns, and has {}; --column time=NAME takes the "
NO_COLUMNS += "column NAME"
NO_VARIABLE = "line 3: `{}` in column `{}` is not a variable; a name is expected, or a name with a number from 0 to 255 in brackets, as "
NO_VARIABLE += "flag[1], flag[0x1] or flag(1)"
# a log with names of its own, and the options that name its columns
OWN = "Zeit,Kern,Op,Variable,NewVal,RdVal\n"
OWN_COLUMNS = "--column time=Zeit --column cpu=Kern --column operation=Op --column value=NewVal --column value=RdVal"
NEEDS_ATOMIC = "line 2: `turn` has no index, so all processes may write it, and the memory is safe; such a variable needs atomic memory: "


class Log(NamedTuple):
    """A log, the options of from_csv.py, and the trace or the message that is expected."""

    text: str
    wanted: str
    options: str = ""


# what is wrong with each log or option
MISTAKES = [
    # columns
    Log("", NO_COLUMNS.format(1, "none")),
    Log(
        "time,operation\n",
        "line 1: no column is named cpu; this line names the columns, and has time, operation; --column cpu=NAME takes the column NAME",
    ),
    Log("# no header\n\n139,2,call\n", NO_COLUMNS.format(3, "139, 2, call")),
    Log("time,cpu,operation,cpu\n", "line 1: two columns are named `cpu`"),
    Log(MARKS, "the log has no row below its first line"),
    Log(
        f"{MARKS}1,0,call\n",
        "--column index=place: no column is named place; line 1 has time, cpu, operation",
        "--column index=place",
    ),
    Log(
        f"{MARKS}1,0,call\n",
        "--column core=cpu: `core` is not a column; one of time, cpu, operation, begin, end, variable, index, value, old, expected is "
        "expected before `=`",
        "--column core=cpu",
    ),
    Log(f"{MARKS}1,0,call,7\n", "line 2: 4 values, and line 1 names 3 columns"),
    Log(
        f"{OWN}1,0,write,turn,1\n",
        "--column cpu=Core: no column is named Core; line 1 has Zeit, Kern, Op, Variable, NewVal, RdVal",
        "--column cpu=Core",
    ),
    # several columns for one of ours
    Log("Op,time,OP,cpu\n", "line 1: two columns are named `Op`", "--column operation=Op"),
    Log(
        "time,cpu,operation,value,RdVal\n",
        "line 1: `RdVal` and `value` are both the column `value`; add --column value=value to take the one that is not empty",
        "--column value=RdVal",
    ),
    Log(
        f"{OWN}1,0,write,turn,1,0x1\n2,0,read,turn,0,1\n",
        "line 3: `NewVal` has 0 and `RdVal` has 1, and both are the column `value`; one of them is expected to be empty",
        OWN_COLUMNS,
    ),
    Log(f"{OWN}1,0,write,turn\n", f"line 2: column `NewVal` or `RdVal` is empty or missing; {NUMBER}", OWN_COLUMNS),
    # numbers and times
    Log(f"{MARKS}1,x,call\n", f"line 2: `x` in column `cpu` is not a number; {CPU}"),
    Log(f"{MARKS}1,,call\n", f"line 2: column `cpu` is empty or missing; {CPU}"),
    Log(f"{MARKS}1,0,call\n2,16,call\n", f"line 3: 16 in column `cpu` is out of range; {CPU}"),
    Log(f"{MARKS}soon,0,call\n", "line 2: `soon` in column `time` is not a time; a number is expected"),
    Log(f"{MARKS}nan,0,call\n", "line 2: `nan` in column `time` is not a time; a number is expected"),
    Log(f"{MARKS}0xg,0,call\n", "line 2: `0xg` in column `time` is not a time; a number is expected"),
    Log(f"{MARKS},0,call\n", "line 2: column `time` is empty or missing; a number is expected"),
    Log(f"{MARKS}12 ns,0,call\n", "line 2: `12 ns` in column `time` is not a time; a number is expected, as 12 in place of `12 ns`"),
    Log(f"{MARKS}1,cpu0,call\n", f"line 2: `cpu0` in column `cpu` is not a number; {CPU}, as 0 in place of `cpu0`"),
    Log(f"{OWN}1,C3,call\n", f"line 2: `C3` in column `Kern` is not a number; {CPU}, as 3 in place of `C3`", OWN_COLUMNS),
    Log(f"{OWN}soon,0,call\n", "line 2: `soon` in column `Zeit` is not a time; a number is expected", OWN_COLUMNS),
    Log(f"{ACCESSES}1,0,write,flag,0,-1\n", f"line 2: -1 in column `value` is out of range; {NUMBER}"),
    Log(f"{ACCESSES}1,0,write,flag,0,4294967296\n", f"line 2: 4294967296 in column `value` is out of range; {NUMBER}"),
    Log(f"{ACCESSES}1,0,write,flag,0\n", f"line 2: column `value` is empty or missing; {NUMBER}"),
    Log(f"{ACCESSES}1,0,swap,lock,,1\n", f"line 2: column `old` is empty or missing; {NUMBER}"),
    Log(f"{ACCESSES}1,0,cas,lock,,1,0\n", f"line 2: column `expected` is empty or missing; {NUMBER}"),
    # operations and variables
    Log(
        f"{MARKS}1,0,fence\n",
        f"line 2: `fence` is not an operation, which are {KNOWN}; add --operation NAME=fence if it is one of these, and --skip fence to "
        "ignore such rows",
    ),
    Log(
        f"{OWN}1,0,LOCK_REQ\n",
        f"line 2: `LOCK_REQ` is not an operation, which are {KNOWN}; add --operation NAME=LOCK_REQ if it is one of these, and --skip "
        "LOCK_REQ to ignore such rows",
        OWN_COLUMNS,
    ),
    Log(f"{OWN}1,0\n", f"line 2: column `Op` is empty or missing; an operation is expected, which are {KNOWN}", OWN_COLUMNS),
    Log(
        f"{MARKS}1,0,LD\n",
        f"--operation raed=LD: `raed` is not an operation; one of {KNOWN}, section is expected before `=`",
        "--operation raed=LD",
    ),
    Log(f"{ACCESSES}1,0,read,,0,1\n", "line 2: column `variable` is empty or missing; `read` needs the name of a variable"),
    Log(
        f"{OWN}1,0,LD\n",
        "line 2: column `Variable` is empty or missing; `LD` needs the name of a variable",
        f"{OWN_COLUMNS} --operation read=LD",
    ),
    # what is in brackets
    *(Log(f"{ACCESSES}1,0,read,flag,0,1\n2,1,read,{it},,1\n", NO_VARIABLE.format(it, "variable")) for it in (
        *("flag[i]", "flag[]", "flag[ ]", "flag()", "flag[1)", "flag[1", "flag]", "flag[1]x", "flag[256]", "flag[-1]", "flag[x][1]"),
        *("[1]", "(1)flag", "flag[[1]]"),
    )),
    Log(f"{OWN}1,0,write,Flag(0),1\n2,1,write,Flag(me),1\n", NO_VARIABLE.format("Flag(me)", "Variable"), OWN_COLUMNS),
    Log(
        f"{ACCESSES}1,0,read,flag[0x1],,1\n2,0,read,flag,,1\n",
        "line 3: `flag` has no index, and an index in line 2; give each row of it an index, or none",
    ),
    Log(f"{ACCESSES}1,0,read,flag(0x1),0,1\n", "line 2: `flag(0x1)` has an index, and column `index` has 0; leave that empty"),
    Log(
        f"{ACCESSES}1,0,read,flag,0,1\n2,1,read,flag,,1\n",
        "line 3: `flag` has no index, and an index in line 2; give each row of it an index, or none",
    ),
    Log(
        f"{ACCESSES}1,0,write,turn,,1\n2,1,write,turn,,0\n3,0,read,turn,1,0\n4,1,read,turn,,0\n",
        "line 4: `turn` has an index, and no index in 3 other rows, such as line 2; give each row of it an index, or none",
    ),
    Log(
        f"{LASTING}1,2,0,write,flag,0,1\n3,4,0,write,flag,,0\n5,6,1,read,flag,0,0\n",
        "line 3: `flag` has no index, and an index in 2 other rows, such as line 2; give each row of it an index, or none",
    ),
    Log(f"{ACCESSES}1,0,read,flag[0],1,1\n", "line 2: `flag[0]` has an index, and column `index` has 1; leave that empty"),
    Log(
        f"{ACCESSES}1,0,call\n2,0,enter\n3,0,leave\n4,0,write,flag,0,1\n5,0,enter\n",
        "line 6: cpu 0 has no `call` between its `leave` of line 4 and this `enter`; log a `call` before the first access of each "
        "attempt",
    ),
    Log(
        f"{OWN}1,0,call\n2,0,LOCK_ACQ\n3,0,LOCK_REL\n4,0,write,turn,1\n5,0,Lock_Acq\n",
        "line 6: cpu 0 has no `call` between its `LOCK_REL` of line 4 and this `Lock_Acq`; log a `call` before the first access of each "
        "attempt",
        f"{OWN_COLUMNS} --operation enter=LOCK_ACQ --operation leave=LOCK_REL",
    ),
    # begins and ends
    Log(f"{LASTING}0x9,3,0,read,flag,0,0\n", "line 2: it begins at 0x9 and ends at 3, which is earlier"),
    Log(f"{LASTING}9,3,0,read,flag,0,0\n", "line 2: it begins at 9 and ends at 3, which is earlier"),
    Log(
        f"{LASTING}1,9,0,write,flag,0,1\n2,3,0,read,flag,1,0\n",
        "line 3: cpu 0 begins an access at 2, and that of line 2 has not ended; a process makes one access at a time, without store "
        "buffers",
    ),
    Log(
        f"{LASTING}1,9,0,add,next,,1\n",
        "line 2: `add` needs atomic memory, which has no begins: --column time=end takes each row at its end",
    ),
    Log(f"{LASTING}1,9,0,write,turn,,1\n", f"{NEEDS_ATOMIC}--column time=end takes each row at its end"),
    Log(f"{ACCESSES}1,0,write-begin,turn,,1\n", f"{NEEDS_ATOMIC}log one row for each access"),
    Log(
        "begin,Fine,cpu,operation,variable,index,value\n1,9,0,write,turn,,1\n",
        f"{NEEDS_ATOMIC}--column time=Fine takes each row at its end",
        "--column end=Fine",
    ),
    # a memory that the log does not have
    Log(
        f"{ACCESSES}1,0,write,turn,,1\n",
        f"{NEEDS_ATOMIC}leave out --memory safe, since the log has one row for each access",
        "--memory safe",
    ),
    Log(
        f"{LASTING}1,9,0,write,turn,,1\n",
        f"{NEEDS_ATOMIC}--column time=end takes each row at its end, and leave out --memory safe",
        "--memory safe",
    ),
    # limits of a trace, and options
    Log(
        f"{LASTING}1,9,0,write,flag,0,1\n",
        "line 2: in atomic memory an access is one row, and this one has a begin and an end",
        "--memory atomic",
    ),
    Log(
        f"{ACCESSES}1,0,write,number,0,256\n",
        "`number` has width 9, its greatest value is 256, and it opens with 0; a width is 1 to 8 in regular memory, and the opening value "
        "fits it",
        "--memory regular",
    ),
    Log(
        ACCESSES + "".join(f"{number},0,read,v{number},0,0\n" for number in range(65)),
        "line 66: `v64` is one register too many; a trace has at most 64",
    ),
    Log(
        f"{ACCESSES}1,0,write,flag,0,1\n",
        "`flag` has width 1, its greatest value is 1, and it opens with 2; a width is 1 to 32 in atomic memory, and the opening value "
        "fits it",
        "--width flag=1 --opens flag=2",
    ),
    Log(f"{ACCESSES}1,0,write,flag,0,1\n", "--opens falg: the log has no such variable; it has flag", "--opens falg=1"),
    Log(f"{ACCESSES}1,0,write,flag,0,1\n", "--shared falg: the log has no such variable; it has flag", "--shared falg"),
    Log(f"{ACCESSES}1,0,write,Flag,0,1\n", "--name flag: the log has no such variable; it has Flag", "--name flag=own"),
    Log(
        f"{ACCESSES}1,0,write,flag,0,1\n",
        "`flag` has width 0, its greatest value is 1, and it opens with 0; a width is 1 to 32 in atomic memory, and the opening value "
        "fits it",
        "--width flag=0",
    ),
    Log(
        f"{ACCESSES}1,0,write,flag,0,1\n",
        "--name flag=Flag: Flag is not a name of a trace: 1 to 8 of a-z, 0-9 and _, the first no digit",
        "--name flag=Flag",
    ),
    Log(f"{ACCESSES}1,0,read,a,0,1\n2,0,read,b,0,1\n", "--name b=a: a is taken", "--name b=a"),
    Log(f"{MARKS}1,2,call\n", "--processes 2: the log has 3, and a trace at most 16", "--processes 2"),
    Log(f"{MARKS}1,0,call\n", "--processes 0: the log has 1, and a trace at most 16", "--processes 0"),
    Log(f"{MARKS}1,0,call\n", "--processes 17: the log has 1, and a trace at most 16", "--processes 17"),
    Log(f"{MARKS}1,0,call\n", "--entry 2: the trace has 2 entries, which count from 0", "--entry 2"),
    Log(f"{MARKS}1,0,call\n", "--entry 2: the trace has 2 entries, which count from 0", "--entry 1 --entry 2"),
]

# the trace of each log
TRACES = [
    # columns by other names, another separator, comments, empty lines, signs of several kinds; times that differ late
    Log(
        "\ufeffCycle;Core;operation;variable;index;value;note\n\n# two writes\n1700000000000000002;1;Write;Flag;1;0x1;second\n"
        " 1700000000000000001 ;0;WRITE;Flag; 0 ;01\n",
        "trace 1\nprocesses 2\nmemory atomic\n# flag is Flag of the log\nregister flag 1\n0 : call\n0 flag[0] set 1\n1 : call\n"
        "1 flag[1] set 1\n",
        "--column time=cycle --column cpu=core",
    ),
    Log(
        "time\tcpu\toperation\n2\t1\tcall\n1e0\t0\tcall\n",
        "trace 1\nprocesses 2\nmemory atomic\nregister door 1\n0 : call\n0 door[0] get 0\n1 : call\n1 door[1] get 0\n",
    ),
    # operations by other names, and indices in the column of the variable
    Log(
        "time,cpu,operation,variable,value\n1,0,LOCK_CALL\n2,0,ST,flag[0],1\n3,0,LD,flag[ 1 ],0\n4,0,LDX,turn,0\n",
        "trace 1\nprocesses 2\nmemory atomic\nregister flag 1\nshared turn 1\n0 : call\n0 flag[0] set 1\n0 flag[1] get 0\n0 turn get 0\n",
        "--operation read=LD --operation read=LDX --operation write=ST --operation call=lock-call",
    ),
    # indices in brackets and parentheses, decimal and hexadecimal, and several of them; a mark may have anything there
    Log(
        f"{ACCESSES}1,0,write,Flag[0x0],,1\n2,1,write,Flag(1),1,0x1\n3,0,read,Flag [ 0X1 ],0x1,1\n4,0,enter,(none)\n"
        "5,1,read,m[0x1](0),,0\n",
        "trace 1\nprocesses 2\nmemory atomic\n# flag is Flag of the log\nregister flag 1\n# m_1_ is m[1] of the log\nregister m_1_ 1\n"
        "0 : call\n0 flag[0] set 1\n1 : call\n1 flag[1] set 1\n0 flag[1] get 1 : enter\n1 m_1_[0] get 0\n",
    ),
    # fields of a process's own structure
    Log(
        f"{ACCESSES}1,0,write,node[0].next,,1\n2,1,read,node[0].next,,1\n3,1,write,node[1]->is_locked,,2\n",
        "trace 1\nprocesses 2\nmemory atomic\n# node_nex is node.next of the log\nregister node_nex 1\n"
        "# node__is is node->is_locked of the log\nregister node__is 2\n"
        "0 : call\n0 node_nex[0] set 1\n1 : call\n1 node_nex[0] get 1\n1 node__is[1] set 2\n",
    ),
    Log(
        f"{ACCESSES}1,0,write,Flag[0x1],,1\n2,1,write,Flag(1),,0\n3,1,read,Flag,1,0\n",
        "trace 1\nprocesses 2\nmemory atomic\n# flag1 is Flag[1] of the log\nshared flag1 2 opens 2\n"
        "0 : call\n0 flag1 set 1\n1 : call\n1 flag1 set 0\n1 flag1 get 0\n",
        "--shared Flag --opens Flag(0x1)=0x2",
    ),
    # hexadecimal numbers in all columns
    Log(
        f"{ACCESSES}0x10,0x1,cas,lock,,0xA,0x0,0XB\n0xf,0,read,flag,0x1,0x0\n15.5,0x0,read,flag,0x0,0\n",
        "trace 1\nprocesses 2\nmemory atomic\nregister flag 1\nshared lock 4\n0 : call\n0 flag[1] get 0\n0 flag[0] get 0\n1 : call\n"
        "1 lock cas 11 10 gives 0\n",
    ),
    Log(
        f"{LASTING}0x1,0xA,0,write,flag,0,1\n9,0xb,1,read,flag,0,0\n",
        "trace 1\nprocesses 2\nmemory safe\nregister flag 1\n0 : call\n0 flag[0] write 1\n1 : call\n1 flag[0] read\n0 flag[0] end\n"
        "1 flag[0] value 0\n",
    ),
    # two columns of values, and a value before that is in one of them
    Log(
        f"{OWN}1,0,write,turn,1\n2,1,read,turn,,1\n3,1,read,turn,1,0x1\n4,1,swap,turn,0,1\n",
        "trace 1\nprocesses 2\nmemory atomic\nshared turn 1\n0 : call\n0 turn set 1\n1 : call\n1 turn get 1\n1 turn get 1\n"
        "1 turn swap 0 gives 1\n",
        f"{OWN_COLUMNS} --column old=RdVal",
    ),
    # each access of atomic memory; the marks of an entry; calls that the log leaves out; rows of the same time
    Log(
        f"{ACCESSES}1,0,swap,lock,,1,0\n1,0,wait\n1,0,enter\n1,0,leave\n1,0,answer\n2,2,add,next,,1,3\n3,2,cas,lock,,5,1,0\n"
        "4,0,call\n4,0,read,lock,,1\n5,0,call\n",
        "trace 1\nprocesses 3\nmemory atomic\nshared lock 3\nshared next 3\n"
        "0 : call\n0 lock swap 1 gives 0 : wait : enter : leave : answer\n"
        "2 : call\n2 next add 1 gives 3\n2 lock cas 0 5 gives 1\n0 : call\n0 lock get 1 : answer\n0 : call\n",
    ),
    # a call is an entry of its own
    Log(
        f"{ACCESSES}1,0,call\n2,0,enter\n3,1,read,flag,0,0\n",
        "trace 1\nprocesses 2\nmemory atomic\nregister flag 1\n0 : call\n0 : enter\n1 : call\n1 flag[0] get 0\n",
    ),
    # a fifth mark takes an entry of its own
    Log(
        f"{ACCESSES}1,0,read,flag,0,0\n1,0,wait\n1,0,enter\n1,0,leave\n1,0,leave\n1,0,answer\n",
        "trace 1\nprocesses 2\nmemory atomic\nregister flag 1\n0 : call\n0 flag[0] get 0 : wait : enter : leave : leave\n0 : answer\n",
    ),
    # opening values, widths, processes, rows that are skipped
    Log(
        f"{ACCESSES}1,0,fence\n2,0,read,turn,,1\n3,0,read,flag,1,0\n4,0,MEM_BAR\n",
        "trace 1\nprocesses 4\nmemory atomic\nshared turn 1 opens 1\nregister flag 2\n0 : call\n0 turn get 1\n0 flag[1] get 0\n",
        "--opens turn=1 --width flag=2 --processes 4 --skip fence --skip mem-bar",
    ),
    Log(
        f"{ACCESSES}1,0,read,slots,0,1\n2,0,read,slots,1,0\n",
        "trace 1\nprocesses 2\nmemory atomic\nshared slots0 2 opens 1\nshared slots1 2\n0 : call\n0 slots0 get 1\n0 slots1 get 0\n",
        "--shared slots --opens slots[0]=1 --width slots=2",
    ),
    # names: with capital letters, cut, taken, with other signs, of arrays that all processes write
    Log(
        f"{ACCESSES}1,0,read,isFree,,0\n2,0,read,isfree,,0\n3,0,read,ISFREE,,0\n",
        "trace 1\nprocesses 2\nmemory atomic\n# isfree is isFree of the log\nshared isfree 1\n# isfree_2 is isfree of the log\n"
        "shared isfree_2 1\n# isfree_3 is ISFREE of the log\nshared isfree_3 1\n"
        "0 : call\n0 isfree get 0\n0 isfree_2 get 0\n0 isfree_3 get 0\n",
    ),
    Log(
        f"{ACCESSES}1,0,read,next_ticket,,0\n2,0,read,next_ticker,,0\n3,0,read,q->tail,,0\n4,0,read,2nd,,0\n5,1,write,Slots,3,1\n"
        "6,0,read,Slots,12,0\n",
        "trace 1\nprocesses 2\nmemory atomic\n# next_tic is next_ticket of the log\nshared next_tic 1\n"
        "# next_t_2 is next_ticker of the log\nshared next_t_2 1\n# q__tail is q->tail of the log\nshared q__tail 1\n"
        "# _2nd is 2nd of the log\nshared _2nd 1\n# slots3 is Slots[3] of the log\nshared slots3 1\n"
        "# slots12 is Slots[12] of the log\nshared slots12 1\n"
        "0 : call\n0 next_tic get 0\n0 next_t_2 get 0\n0 q__tail get 0\n0 _2nd get 0\n1 : call\n1 slots3 set 1\n0 slots12 get 0\n",
        "--shared Slots",
    ),
    Log(
        f"{ACCESSES}1,0,read,next_ticket,,0\n2,0,add,word,1,1,0\n",
        "trace 1\nprocesses 2\nmemory atomic\n# next is next_ticket of the log\nshared next 1\n# w1 is word[1] of the log\nshared w1 1\n"
        "0 : call\n0 next get 0\n0 w1 add 1 gives 0\n",
        "--name next_ticket=next --name word=w",
    ),
    # begins and ends in rows of their own
    Log(
        f"{ACCESSES}1,0,write_begin,flag,0,1\n2,1,read-begin,flag,0\n3,0,write-end,flag,0\n4,1,read-end,flag,0,0\n",
        "trace 1\nprocesses 2\nmemory regular\nregister flag 1\n0 : call\n0 flag[0] write 1\n1 : call\n1 flag[0] read\n0 flag[0] end\n"
        "1 flag[0] value 0\n",
        "--memory regular",
    ),
    # rows that touch overlap; those of one process keep their order; an access without a length
    Log(
        f"{LASTING}0,0,0,call\n1,3,0,write,flag,0,1\n3,3,0,wait\n3,3,0,read,flag,1,0\n3,5,1,read,flag,0,0\n5,5,1,enter\n",
        "trace 1\nprocesses 2\nmemory safe\nregister flag 1\n0 : call\n0 flag[0] write 1\n1 : call\n1 flag[0] read\n0 flag[0] end : wait\n"
        "0 flag[1] read\n0 flag[1] value 0\n1 flag[0] value 0 : enter\n",
    ),
    # each row at its end
    Log(
        f"{LASTING}1,9,0,write,turn,,1\n2,3,1,read,turn,,0\n",
        "trace 1\nprocesses 2\nmemory atomic\nshared turn 1\n1 : call\n1 turn get 0\n0 : call\n0 turn set 1\n",
        "--column time=end",
    ),
    # critical sections alone: of those that touch, the first one is left first
    Log(
        "begin,end,cpu,operation\n3,4,0,section\n1,3,1,section\n5,6,1,section\n",
        "trace 1\nprocesses 2\nmemory atomic\nregister door 1\n1 : call\n1 door[1] get 0 : enter : leave\n0 : call\n"
        "0 door[0] get 0 : enter : leave\n1 : answer\n1 : call\n1 door[1] get 0 : enter : leave\n",
    ),
]

# what --entry prints, once or for several entries
ENTRIES = [
    Log(f"{MARKS}1,0,call\n2,0,wait\n3,0,enter\n", "entry 0: 0 : call\nline 2: 1,0,call\n", "--entry 0"),
    Log(
        f"{MARKS}1,0,call\n2,0,wait\n3,0,enter\n",
        "entry 1: 0 door[0] get 0 : wait : enter\nline 2: 1,0,call\nline 3: 2,0,wait\nline 4: 3,0,enter\n"
        "entry 0: 0 : call\nline 2: 1,0,call\n",
        "--entry 1 --entry 0",
    ),
]

NO_ENTER = "no row has the operation `enter`, so no entry can break the law `together`"
NO_WAIT = "no row has the operation `wait`, so no entry can break the law `overtaken`"
# what the program notes about each log, on lines of their own
NOTES = [
    Log(f"{ACCESSES}1,0,write,flag,0,1\n", f"{NO_ENTER}\n{NO_WAIT}"),
    # (a mark may name a variable)
    Log(f"{ACCESSES}1,0,write,flag,0,1\n1,0,wait,flag,0\n1,0,enter,flag,1\n", ""),
    Log(
        f"{ACCESSES}1,1,write,flag,1,1\n2,1,write,flag,0,1\n3,0,wait\n4,0,enter\n",
        "line 3: `flag` with index 0 is not a cell that cpu 1 may write; if all processes write that array, add --shared flag",
    ),
    Log(
        f"{ACCESSES}1,1,read,slots,2,1\n3,0,wait\n4,0,enter\n",
        "line 2: `slots` with index 2 is not a cell that cpu 1 may read; if all processes write that array, add --shared slots",
    ),
]

# a trail of a model with other moves, and its trace
TRAIL = (
    "2 : call\n2 next add 1 gives 1\n: wait\n2 slot[3] set 5 : enter\n: leave\nspin: trail ends after 4 steps\n3 processes created\n",
    "trace 1\nprocesses 4\nmemory atomic\nshared next 2\nregister slot 3\n"
    "2 : call\n2 next add 1 gives 1 : wait\n2 slot[3] set 5 : enter : leave\n",
)
# what to_trace.py reports of a trail
TRAIL_MISTAKES = [
    (
        "spin: trail ends after 3 steps\n2 processes created\n",
        "no entries; check that the model has a trail and prints its accesses, and that `spin -t -T` replays it",
    ),
    ("0 : call\n0 enter\n", "line 2: `0 enter` is not an entry; `0 flag[1] get 0`, `0 turn set 1` or `0 : call` is one"),
    ("0 flag[0] set 1\n0 flag get 1\n", "flag has an index in some entries and none in others"),
    (
        "0 next_ticket add 1 gives 0\n",
        "next_ticket is not a name of a trace, which has 1 to 8 small letters, digits and `_`; print another one",
    ),
    ("0 nextT get 0\n", "nextT is not a name of a trace, which has 1 to 8 small letters, digits and `_`; print another one"),
]
