#!/usr/bin/env python3
"""Writes the middle and the last part of docs/DESIGN-PASS.md anew: `drafts/design_pass.py OLD COMPARE`, at the repository's top.

OLD is a folder with the files of the commit in the page's first line (`git archive`), COMPARE the script that compares the contracts of two
folders and writes them as JSON. What is gone and has no line in the maps below is printed. Gone when the design pass is resolved.
"""
import collections, json, os, re, subprocess, sys

OLD, COMPARE = sys.argv[1], sys.argv[2]
REPO = os.getcwd()
PAGE = os.path.join(REPO, "docs/DESIGN-PASS.md")

# ---- laws under proofs/

def laws(root):
    res={}
    for dp,dn,fn in os.walk(root+'/crates'):
        if '/proofs' not in dp or '/out' in dp: continue
        for f in fn:
            if not f.endswith('.antt') or f in('Answers.antt','Invariants.antt','Lib.antt'): continue
            path=os.path.join(dp,f); crate=path[len(root)+8:].split('/')[0]
            text=open(path).read()
            text=re.sub(r'(^|\s)--[^\n]*','\n',text)
            lines=text.split('\n')
            stack=[] # (indent, module params)
            i=0
            while i<len(lines):
                l=lines[i]
                ind=len(l)-len(l.lstrip())
                st=l.strip()
                if not st: i+=1; continue
                while stack and stack[-1][0]>=ind: stack.pop()
                m=re.match(r'module (\S+)(.*)',st)
                if m:
                    t=st; j=i
                    while not re.search(r'\bwhere\b',t) and j+1<len(lines): j+=1; t+=' '+lines[j].strip()
                    stack.append((ind,re.sub(r'^module \S+','',t).replace(' where','').strip())); i=j+1; continue
                m=re.match(r'(?:unfoldable |abbrev |opaque )?(pub )?([^\s:(){}]+) : (.*)$',st)
                if m and not re.match(r'(use|record|data|where|let|in)\b',st):
                    t=m.group(3); j=i
                    while j+1<len(lines):
                        n=lines[j+1]
                        if n.strip()=='' : break
                        ni=len(n)-len(n.lstrip())
                        if ni<=ind: break
                        j+=1; t+=' '+n.strip()
                    # skip fields in records: ind>0 and not in module
                    if stack or ind==0:
                        ctx=' '.join(s[1] for s in stack)
                        key=(crate,m.group(2))
                        res.setdefault(key,[]).append((bool(m.group(1)),' '.join((ctx+' ⊢ '+t).split()),path[len(root)+1:]))
                    i=j+1; continue
                i+=1
    return res

# ---- theorems that documents name

def named():
    old, new = laws(OLD), laws(REPO)
    names={}
    for k in old: names.setdefault(k[1],[]).append(k[0])
    cited={}
    for dp,dn,fn in os.walk(OLD):
        for f in fn:
            if f.endswith('.md') and f!='PORT.md' and f!='CHANGES.md':
                t=open(os.path.join(dp,f)).read()
                for w in re.findall(r'`([^`\n]+)`',t):
                    for x in re.split(r'[\s,]+',w):
                        x=x.split('.')[-1]
                        if x in names and ('-' in x or '_' in x): cited.setdefault(x,set()).add(f)
    nn={}
    for k in new: nn.setdefault(k[1],[]).append(k[0])
    rows=[]
    for x in sorted(cited):
        if x not in nn: print('GONE',x,names[x],sorted(cited[x]))
        else:
            for c in names[x]:
                o=sorted(v[1] for v in old[(c,x)]); n=sorted(v[1] for v in new.get((c,x),[]))
                if o!=n:
                    n2=n
                    c2=c
                    if not n:
                        c2=','.join(nn[x]); n2=sorted(v[1] for v in new[(nn[x][0],x)])
                    rows.append((c,x,o,c2,n2))
    return rows

# ---- what states it now

fn={};df={}
def f(crate,names,now):
    for n in names.split(): fn[f'{crate} {n}']=now
def d(crate,names,now):
    for n in names.split(): df[f'{crate} {n}']=now
f('cnf','open_clause','the method `open` of `Clauses`, `Opens` of the struct before and after')
f('cnf','push push_ordered push_pair push_short push_simplified push_single','the method of `Clauses` of this name, the same `Pushes`, `PushesFilled` or `Appends` of the struct before and after')
f('cnf','push_none push_one push_two push_three','the method `push` of `Clauses`, which takes the words as a slice')
f('compose','room_beside','`compose_witnesses` itself: the room that the model leaves is an Option of `add_counts`')
f('compose_gates','number_of same_pair slot_of','see below')
f('compose_gather','leaf_count names_before','the methods `count_in` and `names_before` of `Leaves` in `compose_joint`')
f('compose_gather','text_at','the method `text` of `Texts` and of `Witnesses`')
f('compose_lines','print_field','the method `field` of `Printer`, the same text')
f('compose_lines','print_four print_start print_two print_fields','the method `fields` of `Printer`, the same text for any numbers')
f('compose_names','kind_of','the method `kind` of `Leaves`')
f('compose_names','print_unnamed','the method `unnamed` of `Leaves`, printed where a name is')
f('compose_print','print_composition print_tail','the methods `print` and `print_tail` of `Composition`')
f('nitrasovy','flat_bytes flat_stepped flat_made flat_counts flat_value','`From` for the struct that C reads, the same equation')
f('obligation','append_front','`append_all`, `AppendsAll`')
f('obligation_check','comes_before','`<` of `Outcome`, whose order is derived')
f('obligation_check','validate_boundary','the method `boundary_holds` of `Predicate`, the same `Bounds`')
f('obligation_claims','sort_first','`sort` of `word_sort` at its two places')
f('obligation_gates','push_literal','the method `push_single` of `Clauses`')
f('probe','flat_field flat_line flat_literal','`probe_field`, `probe_line` and `probe_take_literal` themselves, over `field_at`, `line_at` and `flat_literal`')
f('probe','flat_number flat_written','`From` for the struct that C reads, the same equation')
f('replay','stop show_name','`answer` and `replay`, which print it at one place')
f('replay_text','either number words malformed','the methods `field`, `fields` and `bytes` of `Printer`')
f('row_cases','accepted_and_forms at_the_limit bad_numbers constants counts definitions forms headers limits_and_lines models models_refused orders past_the_limit rows sections states','one list of all inputs, in the same order')
f('row_text','write_clause write_clauses write_rows write_refused','`print_clause`, `print_clauses`, `print_rows`, `print_refused`, over a `Printer`: `PrintsAnswer`')
f('row_text','write_number write_words write_end','the methods `bytes`, `field`, `fields` and `byte` of `Printer`')
f('scan','first_line_feed run_end','`passing`, for every test of bytes')
f('scan','line_end','`line_length` of what is left of the text, the same span')
f('text_print','advance','the private `pass` of `Printer`')
f('text_print','print_byte print_bytes print_number print_three print_consecutive print_pairs print_set print_word print_literal_line','the method of `Printer`: `PrintsOn` has `Prints` of the same bytes')
f('text_print','print_gates_with print_three_with','the methods `pairs` and `three` of `Printer`')
f('witness_text','counts_of','`From` for `AagCounts`, the same equation')
f('witness_text','first_space','`passing`, for every test of bytes')
f('witness_text','kind_of','`TryFrom<u8>` for `Kind`')
f('text','blanks_end field_end','`passing` of `scan`, for every test of bytes')
f('text','is_blank','`passes` of `ByteTest`, with the definition `is_blank`')
f('row_text','piece_end','`passing` of `scan`')
f('circuit_lines','take_literals','`take_lines` of `LiteralLine`')
f('model_read','take_inputs take_outputs','`take_front` of `circuit_lines`, for any kind of line and any size')
f('model_text','take_latches','`take_front` of `LatchLine`')
d('circuit_lines','lines_from','`lines_of` of the text that is left')
d('compose','room_beside','the Option of `added_counts`')
d('compose_print','PrintableSome','`OfSome` of `PrintableOf`')
d('obligation','empty','the law of this name in `cnf`')
d('probe','cursor_at','a place is a number')
d('probe','flat_field flat_line','`field_at` and `line_at` of the probe, which say it of the struct at once')
d('row_text','Printable Prints PrintsFor','`PrintsAnswer`: what is printed, and at most how many bytes')
d('row_text','clause_bytes clauses_bytes spaced_numbers','`fields_text` of `text_print`')
d('text','line_at line_from','`TakesLine` of the text from the place on; as a struct of places, `line_at` of `probe`')
d('text','field_at field_from','`TakesField` of the line from the place on; as a struct of places, `field_at` of `probe`')
d('text','taken_at taken_field taken_number','`TakesNumber` of the line from the place on')
d('text','literal_line','`literal_at`, by `first_literal` of the lines from the place on')
d('compose_gather','CanShiftList','see below')
d('compose_lines','fields_text','`fields_text` of `text_print`')
d('compose_names','own_name','the Option of a slice that `name_at` reads')
f('compose','room_beside','`room_after` of `compose_gather`, as an Option')
f('compose_gates','number_of','`find_or_add` of `key_table` at its one place')
f('compose_gates','slot_of same_pair','written in `define_latches` and `define_latch`, whose `DefinesAll` and `Defines` stay')
f('compose_gather','leaf_count names_before','the methods `count` and `names_before` of `Leaves` in `compose_joint`')
f('compose_gather','shift_list','written in `gather`, the same `Gathers`')
f('compose_names','print_head print_symbol','the method `print_row` of `Rows`, the same symbol line')
f('compose_names','print_row print_names print_witness','the methods of `Rows`, the same rows')
f('compose_numbers','add_literal','written in `add_literals`')
f('compose_numbers','known_place number_leaf','`known_number`: `KnownNumber`')
f('compose_origins','is_right','`origin_word`, which is an Option (`SomeIff`)')
f('compose_origins','mapped_at mapping_at','`name_at` of `compose_gather`; `is_mapped` and `mapping_of` equal the definitions of `compose_spec`')
d('compose','room_beside','`room_after` of `compose_gather`')
d('compose_gather','CanShiftList','`CanShiftRange`')
d('compose_names','own_name','moved to `compose_gather`, module `Names`')
d('compose_origins','SaysName MapsTo TestsName SaysAt TestsAt MappedAt MapsAt','the definitions of `compose_spec` of an Option of a name, which `name_at` reads')
d('compose_gates','TwoLiterals literal_at key_at Findable FindsIn','`Finds` of `key_table`, of the literals themselves')
d('compose_gates','table_end table_in gates_at','the table as a slice of its own')
d('compose_gates','Slot SlotIs Storable defined_at','`defined_in` of the slices')
d('compose_numbers','Listed ListedAt CanNumberOne Turn number_one NumberedOne numbers_in turn','`Known`, `known_one` and `KnownNumber` of the slices')
d('compose_numbers','literals_at CanAddOne AddedOne','`composed_in` of the slices')
d('compose_print','PrintableSome','`OfSome` of `PrintableOf`')
f('replay','stop','`replay_block` and `replay`, where a case that has no end is told')
f('replay','show_name','the method `make` of `Case`')
f('replay','read_full','`whole_input::read_full`, the same clause')
f('replay_text','literals words number either','the methods `field`, `fields` and `bytes` of `Printer`, for any `Number`')
f('text','sign_end','`unsigned` in `numbers`')
f('text','zeros_end','`without_zeros` in `numbers`')
f('text_print','advance','`saturating_add` of std, in the private `pass` of `Printer`')
f('witness_read','both wide','`&`, a cast, and `passes` of `Numbered`')
f('witness_load','load_literals','`take_lines` of `circuit_lines`, of `LiteralLine`')
d('model_read','TakesLiterals','`FrontTaken` and `TakesFront` of `circuit_lines`')
d('model_text','TakesLatches','`TakesFront latch_line`')
d('text','literal_number','`literal_at` with `LineLiteral`')
d('obligation','empty','the abbreviation of this name in `AppendLaws` of `cnf`')
d('witness_load','literal_word','`take_lines` of the slice of literals, which are its words')
f('witness_load','store_leaf','written in `name_line`, the same `NamesLine`')
d('witness_load','with_words','the pair of words that `name_line` stores')


# ---- the lists

def lists():
    fn_now, df_now = dict(fn), dict(df)
    d=json.loads(subprocess.run(["python3",COMPARE,OLD,REPO,"--json"],capture_output=True,text=True).stdout)
    p=PAGE
    s=open(p).read()
    head,tail=s.split('## What changed, old and new\n',1)
    def table(title):
        m=re.search(r'### '+re.escape(title)+r'\n\n\|[^\n]*\n\|[-|]+\n(.*?)(?:\n\n|\Z)',tail,re.S)
        return [tuple(c.strip() for c in re.split(r'(?<!\\)\|',row)[1:-1]) for row in m.group(1).strip().split('\n')]
    gone=collections.defaultdict(list)
    for g,n in table('Functions that are gone, and what states their promise now'): gone[g].append(n)
    gone_definitions={g:n for g,n in table('Definitions that are gone, and what says it now')}
    extra={'fn':fn_now,'def':df_now}
    esc=lambda t: t.replace('|','\\|')
    def sig(t): return ' '.join(t.split()).replace('( ','(').replace(', )',')')
    def clauses(r,e):
        a=['requires %s'%' '.join(((n+' ') if n else '')+'{}' for n,t in []) ]
        f=lambda w,l: ['`%s%s %s`'%(w,' '+n if n else '',esc(' '.join(t.split()))) for n,t in l]
        x=f('requires',r)+f('ensures',e)
        return '<br>'.join(x) or 'none'
    o=[]
    o.append('## What changed, old and new\n')
    o.append("By the kit's comparison of the two states (`port.py contracts`). A function or definition that is gone stands beside what states its promise now.\n")
    D=d['definitions'];E=d['edits and outputs'];G=d['ghost items and constants'];T=d['tests']
    o.append("### Counted by the kit's comparison\n")
    o.append(f"- crates {d['crates'][0]} and {d['crates'][1]}; gone: {', '.join(d['crates gone']) or 'none'}; new: {', '.join('`%s`'%c for c in d['crates new']) or 'none'}")
    o.append(f"- functions {d['functions'][0]} and {d['functions'][1]}; of those found again the contracts of {d['contracts the same']} are the same and of {len(d['contracts changed'])} changed; signatures changed {len(d['signatures changed'])}; not found again {len(d['functions not found again'])}")
    o.append(f"- ghost items and constants {G['old']} and {G['new']}; the same {G['same']}, changed {len(G['changed'])}, gone {len(G['gone'])}")
    o.append(f"- definitions {D['old']} and {D['new']}; the same {D['same']}, changed {len(D['changed'])}, gone {len(D['gone'])}")
    o.append(f"- tests {T['old']} and {T['new']}; the same {T['same']}, changed {len(T['changed'])}, gone {len(T['gone'])}")
    o.append(f"- edits and outputs {E['old']} and {E['new']}; the same {E['same']}, changed {len(E['changed'])}, gone {len(E['gone'])}")
    o.append(f"- functions with fewer `ensures`: {len(d['fewer ensures'])+len(d['ensures all gone'])}; with more `requires`: {len(d['more requires'])}; with a new `Wait` or `Threads`: {len(d['a new Wait or Threads'])}\n")
    missing=[]
    for k in ('fewer ensures','ensures all gone','more requires'):
        for x in d[k]: print(k,x)
    o.append('### Functions that are gone, and what states their promise now\n')
    o.append('| gone | now |\n|---|---|')
    for x in sorted(d['functions not found again']):
        crate,path,rest=x.split(' ',2)
        name=rest.split(' ')[0]
        key='`%s`: `%s`'%(crate,name)
        if '%s %s'%(crate,name) in extra['fn']: now=extra['fn']['%s %s'%(crate,name)]
        elif gone[key]: now=gone[key][0] if len(gone[key])==1 else gone[key].pop(0)
        else:
            now='?'; missing.append(x)
        o.append(f'| {key} | {now} |')
    o.append('')
    if d['no longer pub']:
        o.append('### Functions that only their own crate calls now\n\n| function | its contract |\n|---|---|')
        ch={c[0] for c in d['contracts changed']}
        for x in sorted(d['no longer pub']):
            o.append(f"| `{x}` | {'below, under the clauses that changed' if x in ch else 'as it was'} |")
        o.append('')
    o.append('### Definitions that are gone, and what says it now\n\n| gone | now |\n|---|---|')
    for c,n in D['gone']:
        key=f'`{c} {n}`'
        if f'{c} {n}' in extra['def']: now=extra['def'][f'{c} {n}']
        elif key in gone_definitions: now=gone_definitions[key]
        else: now='?'; missing.append('DEF '+key)
        o.append(f'| {key} | {now} |')
    o.append('')
    o.append('### Definitions that changed\n\n| definition | was | is |\n|---|---|---|')
    for c,n,a,b in D['changed']:
        o.append('| `%s %s` | %s | %s |'%(c,n,'<br>'.join('`%s`'%esc(t) for t in a),'<br>'.join('`%s`'%esc(t) for t in b)))
    o.append('')
    o.append('### Signatures that changed\n\n| function | was | is |\n|---|---|---|')
    for f,a,b in d['signatures changed']:
        o.append(f'| `{f}` | `{esc(a)}` | `{esc(b)}` |')
    o.append('')
    o.append('### Clauses that changed\n\n| function | was | is |\n|---|---|---|')
    for f,r0,e0,r1,e1 in d['contracts changed']:
        o.append(f'| `{f}` | {clauses(r0,e0)} | {clauses(r1,e1)} |')
    o.append('')
    o.append('### Edits that must fail\n\n| edit | was | is |\n|---|---|---|')
    for c,n,a,b in E['changed']:
        o.append(f'| `{c} {n}` | `{esc(a)}` | `{esc(b)}` |')
    o.append('')
    open(p,'w').write(head+'\n'.join(o))
    print('missing',len(missing))
    for m in missing: print('  ',m)

# ---- lemmas

def lemmas():
    old, new = laws(OLD), laws(REPO)
    W={
    'circuit_lines/GateLaws':'the contracts of `gate_line`, `plain_gate` and `any_line`, by `OneLaws` and `FieldsLaws`; a gate is one kind of line',
    'circuit_lines/HeaderLaws':'the contract of `header_line`, an Option, by `?`',
    'circuit_lines/LiteralLaws':'`one_got`, `one_bad` and the laws of `take_lines`, for every kind of line',
    'cnf/AppendLaws':'`Full` of `cnf/specs/Inner/Appending.antt`',
    'cnf/PushLaws':'`Opens` and `Pushes` of `Clauses`, over a slice of words',
    'cnf/RepeatLaws':'the invariant of `thin`, a `for` over the slice',
    'cnf/ShortLaws':"`min` and `max` of std, in `push_short`",
    'cnf/SimplifyLaws':"`sorted` of a slice, by std's `sort_unstable`",
    'compose/CallLaws':'the contracts of `all_safe` and of the room as an Option',
    'compose/ChainLaws':'the ghost fields of `Texts` and `Witnesses`; `room_after`',
    'compose/LaidLaws':'the ghost fields of `Texts`; the check finds `outcome` alone',
    'compose/TopLaws':'`?`, by `AnsweredLaws` of `aiger`',
    'compose_gates/CallLaws':'the slices that `share_gates` and `define_latches` are lent',
    'compose_gates/DefineLaws':'the same of the slices: `defined_in`',
    'compose_gates/KeptLaws':'that the parts are slices of their own, which a call for another one leaves as they are',
    'compose_gates/KeyLaws':'`key_of` of the two literals, which are read from a slice',
    'compose_gates/LatchLaws':'`Defines` of the slices',
    'compose_gates/TurnLaws':'`Shares` of the slices; the Option of `find_or_add`',
    'compose_gather/CheckLaws':'`?` in `check_one`; the check finds them alone',
    'compose_gather/CountLaws':'`copy_from_slice` of std in `store`; the methods of `Leaves`',
    'compose_gather/ShiftLaws':'`gather`, which shifts from one part of the words into another',
    'compose_lines/GateLaws':'the check finds them alone',
    'compose_lines/HeaderLaws':'`fields` of `Printer` and its `fields_text`',
    'compose_merge/AddLaws':'`split_at_mut` in `collect`: a part is a slice of its own',
    'compose_merge/DefineLaws':'`split_at_mut` in `define`',
    'compose_merge/GateLaws':'`split_at_mut` in `share`',
    'compose_merge/InputLaws':'`number` of both kinds of leaves: `LeafLaws`',
    'compose_merge/LatchLaws':'`number` of both kinds of leaves: `LeafLaws`',
    'compose_merge/LeafLaws':'`number` of both kinds of leaves',
    'compose_names/PieceLaws':'the methods of `Printer` and of `Leaves`; a name is an Option of a slice',
    'compose_names/RowLaws':'`name_at` of `compose_gather`',
    'compose_names/WitnessLaws':'`Rows`, a struct of what stays the same in the rows',
    'compose_numbers/AddLaws':'`add_literals` over slices: `composed_in`',
    'compose_numbers/CallLaws':'`number_leaves` over slices',
    'compose_numbers/NumberLaws':'`known_number` over slices: `Known`, `known_one`',
    'compose_numbers/StoreLaws':'that the parts are slices of their own',
    'compose_origins/AllLaws':'the check finds it alone',
    'compose_origins/LoopLaws':'`store_origins` from one part of the words into another',
    'compose_origins/NameLaws':'`mapping_of` and `is_mapped` of an Option of a name equal the definitions of `compose_spec`',
    'compose_origins/WitnessLaws':'`store_origins` goes on by `?` and `let .. else`',
    'compose_print/WriteLaws':'`PrintsOn` of `Printer`',
    'compose_spec/NameLaws':'`symbol-name` of `witness_text`',
    'key_table/AddLaws':'`copy_from_slice` of std',
    'key_table/HashLaws':'the arithmetic of std that wraps by name',
    'key_table/HeldLaws':'the contract of `walk`, an Option',
    'lists/PairLaws':'the Option of `part_end` and `pair_end`',
    'lists/PartLaws':'`get` and `unwrap_or` of std in `cut`',
    'model/CheckedLaws':'`limited`, the tests as one, and `?` in `validate`',
    'model/DefineLaws':'the check finds them alone',
    'model/MarkingLaws':'the `for` of `define_gates`',
    'model/WordsLaws':'`from_words` of `LentModel`: `lent_record` of it is `record_in` of the words',
    'model_read/ReadLaws':'`Reads` of a Result, by `?`',
    'model_read/StartLaws':'`take_front` for every kind of line: `FrontTaken` of `circuit_lines`',
    'model_step/StepLaws':'`evaluate` over any list of gates: `GateList`',
    'model_step_records/BeginLaws':'`evaluate` of `model_step` over `GateRecords`',
    'model_step_records/PassLaws':'`evaluate` of `model_step` over `GateRecords`',
    'model_step_records/TakeLaws':'`evaluate` of `model_step` over `GateRecords`',
    'model_text/HeaderLaws':'the contract of `take_model_header`, an Option, by `?`',
    'model_text/LatchLaws':'`read` of `LatchLine`; `one_got` and `one_bad` of `circuit_lines`',
    'model_text/StoringLaws':'`take_front` of `circuit_lines` for `LatchLine`',
    'nitrasovy/MadeLaws':'`relation_flat`, `transducer_flat` and `terminal_flat` with the contract of `question`',
    'nitrasovy/ModelLaws':'`LentModel` and its `lent_record`',
    'obligation/CallLaws':'`call_refused`, `call_unclaimed` and `call_made`, for every claim',
    'obligation/ClaimLaws':'`claim_test` and `claim_after`, by what is claimed',
    'obligation/MakingLaws':'`count` and `append_claims` of `Claims`, for every claim',
    'obligation/ReadyLaws':'`Asks`, the ghost field of `Accepted`',
    'obligation_check/OutcomeLaws':'the derived order of `Outcome`, and `below` of std for it',
    'obligation_claims/FillLaws':'`FillLaws` of an Option; the check finds them alone',
    'obligation_claims/KeyLaws':'`sort` of `word_sort` on a slice',
    'obligation_claims/PushLaws':'`push_claims` over `Claims`, for both kinds',
    'obligation_gates/GateLaws':'the gates come as a slice of just their words',
    'probe/FlatLaws':'`From` and the fields of a Result',
    'replay/RepeatLaws':'the check finds it alone',
    'row_text/MadeLaws':'`PrintsAnswer`, of what is printed and at most how many bytes',
    'row_text/OnwardLaws':'`PrintsOn` and `prints_then` of `text_print`',
    'row_text/PieceLaws':'the contract of `passing` of `scan`',
    'row_text/PrintLaws':'`fields_text` of `text_print`, and `PrintsAnswer`',
    'row_text/RowLaws':'`PrintsAnswer`; the check finds the others alone',
    'scan/AllowedLaws':'`rank` of `InLine` and `WitnessByte`; `last` of std in `ends_in_10`',
    'scan/BlockLaws':'`block_passes`, for every test',
    'scan/SameLaws':'`==` and `starts_with` of std',
    'scan/SpanLaws':'the `for` of `passing`, for every test',
    'text/DigitLaws':'`passing` of `scan` for zeros; the `for` of the digits',
    'text/FieldLaws':'`FieldTaken` with `fields_some`, `fields_none`, `field-some_byte`, `field_unblank` of what is left of the line',
    'text/LineLaws':'`LineTaken` with `lines-some`, `lines_none`, `line-moves`, `line_plain` of what is left of the text',
    'text/LiteralLaws':'`TakesNumber` and `TakesLiteral` with `numbers-got`, `literal-gets` and the others',
    'text/NumberLaws':'`parse_usize` over `digits`, by Option',
    'text/PlainLaws':'`IsRun` and `IsPlain` of the front of a text; `long_zero`, which is the definition',
    'text/PlainLineLaws':'`IsPlain` of the front of a text',
    'text_decimal/FigureLaws':'`ilog10` of std in `decimal_length`',
    'text_decimal/WritingLaws':'`Option` and `?` in `write_bytes`',
    'text_print/LineLaws':'the check finds it alone',
    'text_print/PrintsLaws':'`PrintsOn` with `prints_none`, `prints_then` and `prints_as`, which need no side conditions',
    'text_print/WordLaws':'the check finds them alone; `Printing` over printers',
    'text_print/WriteLaws':'`write_digits` and `write_field` of exactly the slice that they fill',
    'witness_load/BodyLaws':'the check finds it alone',
    'witness_load/NamingLaws':'`NamesLine` of the line and its place',
    'witness_load/SectionLaws':'`Loading` of `load_pairs`, for both kinds of line',
    'witness_load/StoreLaws':'the check finds them alone',
    'witness_load/TextLaws':'the contract of `take_witness_header`, an Option',
    'witness_read/BodyLaws':'`?` in `check_body`',
    'witness_read/CheckingLaws':'`all_more` of `lists`, and `Checking` of every kind of line and test',
    'witness_read/NumberedLaws':'`test` of `Numbered`, with `check_section` for every kind of line',
    'witness_read/ReadLaws':'`?` in `read_sections`',
    'witness_read/RisingLaws':'the check finds them alone',
    'witness_read/TailLaws':'`next_symbol`, an Option in a Result',
    'witness_text/HeaderLaws':'the contract of `take_witness_header`, an Option, by `?`',
    'witness_text/LatchLaws':'`read` of `LatchLine`; `one_got` and `one_bad` of `circuit_lines`',
    'witness_text/SymbolLaws':'the contract of `passing` of `scan`; a name is a slice',
    }
    for n in 'AscendLaws BackLaws FrontLaws HalvesLaws InsertLaws MergeLaws SortedLaws'.split():
        W['word_sort/'+n]="`sort_unstable` of std, whose clauses say what it leaves"
    by=collections.OrderedDict()
    moved=[]
    where={}
    for k in new: where.setdefault(k[1],k[0])
    for k in sorted(old):
        if k in new: continue
        path=old[k][0][2]; f=path.split('/')[-1][:-5]
        by.setdefault((k[0],f),[]).append(k[1])
    out=['### Lemmas that are gone, and what states it now\n',
    "Laws under `crates/*/proofs`, counted by their crate and name: %d then and %d now. A law in a row stands no more under its name in its crate.\n"%(len(old),len(new)),
    '| gone | now |\n|---|---|']
    miss=0
    for (c,f),ns in by.items():
        w=W.get(c+'/'+f)
        if not w: miss+=1; w='?'; print('NO REASON',c,f,ns,file=sys.stderr)
        out.append('| `%s` %s: %s | %s |'%(c,f,', '.join('`%s`'%n for n in ns),w))
    out.append('')
    rows=named()
    esc=lambda t:t.replace('|','\\|')
    o2=['### Theorems that README or docs named, and that changed\n','`relation_refused` and `relation_continues` of `obligation` are `call_refused`, and `call_unclaimed` and `call_made`, for every claim;','`words_relation` of `nitrasovy` is `relation_flat` with the contract of `question`; `all_more` of `witness_read` is that of `lists`.\n','| theorem | was | is |\n|---|---|---|']
    for c,x,o,c2,n in rows:
        o2.append('| `%s %s` | %s | %s |'%(c,x,'<br>'.join('`%s`'%esc(t) for t in o),('' if c2==c else '(in `%s`) '%c2)+'<br>'.join('`%s`'%esc(t) for t in n)))
    o2.append('')
    EXTRA='\n'.join(o2)+'\n'+'\n'.join(out)
    return EXTRA

# ---- the table

def table_text():
    lines = []
    put = lines.append
    def run(*a):
        o=subprocess.run([REPO+'/tools/places',*a],cwd=REPO,capture_output=True,text=True).stdout
        d={}
        for l in o.splitlines():
            m=re.match(r'(\w+): (.*): (\d+)$',l)
            if m: d[(m.group(1),m.group(2))]=int(m.group(3))
        return d
    then=run('--commit','a21ec5a497c77089cda4378709f11129cd732206'); now=run(); op=run('--open')
    R=[
    ('enum','two-case enums','1 two-case enums','to Option or Result with `Refusal`','`Claims`, two kinds of claims'),
    ('enum','flag and value','1 flag and value','to Option, or a fact of a type','structs that C reads; `Checked` of `witness_read`'),
    ('enum','numbers for kinds and refusals','1 numbers for refusals and kinds','to the enums `Refusal` and `Call`, and constants','the numbers of stored cases, read into `Call` at one place'),
    ('twin','groups alike','2 groups alike','to generic functions, traits and methods (some of today\'s are new)','alike in form alone, or for C'),
    ('twin','pairs nearly alike','2 pairs nearly alike','to generic functions and one list of inputs','alike in form alone'),
    ('loop','counted by hand','3 counted `while`','to `for`, chains and methods of std','digits from the last on; a read that gives as many bytes as it likes'),
    ('loop','other while and loop','3 other `while` and `loop`','to `while let`, `for` and methods of std','a turn passes as much as it finds'),
    ('hand','conversions','4 conversions','to `From`, `TryFrom` and casts','C\'s record, which would be copied once more; types of other crates; letters and texts'),
    ('hand','minimum, maximum, equality, order, copying','4 minimum, maximum, equality, order, copying','to std and derives',''),
    ('travel','a model record in parts','5 model record in parts','`LentModel`',''),
    ('travel','a predicate over relevant inputs','5 predicate','`Predicate`, a part of `Question`','C\'s arguments, and those of the Rust\'s call'),
    ('travel','buffers of clauses and how far they are filled','5 buffers of clauses','`Clauses`, with methods',''),
    ('travel','witness texts','5 witness texts','`Texts` and `Witnesses`, with their facts; `Composition`',''),
    ('travel','state and input word','5 state and input word','`evaluate` for any list of gates','C\'s arguments; two words of one call'),
    ('travel','a text and a place in it','5 text and place','the text that is left is the place','' ),
    ('travel','a text that is printed and how far','5 printed text and how far','`Printer`, with methods','one write at a place, for the comparison; digits of a place that is passed'),
    ('travel','facts in three or more contracts','5 facts in three contracts','to ghost fields and records','promises of each call by itself; space that changes with each clause'),
    ('buffer','structs','6 structs','','C reads them, or the caller lends what they cut'),
    ('buffer','functions','6 functions','to subslices and `split_at_mut`','where a slice is cut; lines that a header counts; parts of lent words'),
    ('switch','flags','7 flags','to Option and generic functions','C\'s arguments; `witness`, `named`, `known`, `fine`'),
    ('switch','matches','7 matches','to methods and traits','a dispatch on an enum that is read'),
    ]
    put('| point | found | today | changed | kept with a reason | still to do |\n|---|---|---|---|---|---|')
    for p,k,name,ch,ke in R:
        a,b,c=then.get((p,k),0),now.get((p,k),0),op.get((p,k),0)
        changed=max(a-b,0)
        put(f"| {name} | {a} | {b} | {changed if a else 0}{', '+ch if ch and changed else ''} | {b-c}{': '+ke if ke and b-c else ''} | {c or ''} |")
    g=lambda d,k:d[('proof',k)]
    put(f"| 8 answers | {g(then,'answers'):,} | {g(now,'answers'):,} | {g(then,'answers')-g(now,'answers')} | | not every answer was left out and tried; names in `-raw`: {g(then,'answers that cite a -raw name')} then, {g(now,'answers that cite a -raw name')} now |")
    put("")
    put(f"Lines of proofs: answers {g(then,'their lines'):,} then and {g(now,'their lines'):,} now, invariants {g(then,'lines of these'):,} and {g(now,'lines of these'):,}, laws {g(then,'lines of laws'):,} and {g(now,'lines of laws'):,}. Functions: 532 and {subprocess.run([REPO+'/tools/places','loop'],cwd=REPO,capture_output=True,text=True).stdout.strip().split()[-1]}.")
    return "\n".join(lines)

# ---- the page

lists()
s=open(PAGE).read()
def other(*a):
    o=subprocess.run([REPO+'/tools/places','other',*a],cwd=REPO,capture_output=True,text=True).stdout
    return {m.group(1):int(m.group(2)) for m in re.finditer(r'^other: (.*): (\d+)$',o,re.M)}
a,b=other('--commit','a21ec5a497c77089cda4378709f11129cd732206'),other()
second='\n'.join(['| counted otherwise | then | today |','|---|---|---|']+[f'| {k} | {a[k]} | {b[k]} |' for k in a])
start=s.index('## How far the pass is'); end=s.index('## What changed, old and new')
middle=f'''## How far the pass is

Today's numbers are those of `tools/places`; `tools/places --open --list` lists what has no line that says why it is kept.

{table_text()}
Where more than one place in five is kept: of flags and reasons beside a value (point 1) ten are structs that C reads, most by `From` of an Option or
a Result; the eleventh is an answer of both. Of groups alike (point 2) two are the static libraries, which are crates of their own and must have
each call once more; the others are one line each, or alike in form alone: they call other functions or name other fields. Of the other loops
(point 3) each passes as much in a turn as it finds there: a node of a table, a piece of a line, a case, a symbol, digits, bytes of a read.

## Counted in another way

`tools/places other`: by words of the text, by types, by clauses, and by what stands together most often.

{second}

Of today's: ten enums of which `Literals`, `Leaves`, `Kind`, `Reader`, `Refusal`, `Call`, `Claim`, `Claims` and `Mapping` have cases of their own kind
and `Taken` three (a number, none, no field); loops and counts by one are those with a line beside them, or count what passes a test and not a place;
parameters together are `replay`'s numbers of a case with what is lent, the words that are lent with what is in them, and C's arguments; numbers
within a slice are places where a caller's words are cut, and have their lines.

## Read by another, and still to do

A reader who did none of the work read each reason, the list below and the believed definitions of `text` (compared with the old ones and with
an independent reading of R1 and R2 on all 19,531 texts up to six bytes of five, at places 0 to 8: 0 differences in 351,558). No lost promise and
no changed meaning was found; entries of the list that were not true are mended, and `append_ands` asks for the space of whole gates again. These
reasons did not convince, or have a plainer form, which is to be tried; places that no pattern finds are among them.

- Types for facts: counts that hold (`counted limited counts`, seven contracts of the witness reader; inputs and latches
  that are few), at most eight latches (`obligation_check`), arrays of 1,024 and 136 words instead of slices of that length (`obligation_gates`,
  `obligation_claims`); `PrintsOn` with its premises as a fact of `Printer`.
- Records by hand: nine words a witness in `compose_gather/src/counts.rt` could be `[AagCounts; 64]`; `Checked` and `NextSymbol` of `witness_read`
  could be `Parsed`; the table of gates with its heads and count a struct (`key_table`, `compose_lines`, `share_gates`); the parts of the
  composer's words cut once into a struct (`compose_layout`, `compose_merge`); the buffers of `row_text` as a struct, as in `replay`.
- Trains: `roomy` of `obligation/src/making.rt` (seven numbers); `relation_row_completeness_cnf`, whose one caller could make a `Question`;
  parameters that only a proof reads (`compose_gather/src/literals.rt`, `compose_origins`, `compose_layout`).
- Flags: `witness` of both witness readers as an enum of roles; `named` as an enum; `fine` of `define_next` in its caller; `known` in its loop.
- Loops: `split` of std for the pieces of a line (`row_text`), `while let` for the walk of `key_table`, `trailing_zeros` for the bits of a word and
  `rchunks_mut` for digits (`text_print`), a slice that shrinks for the cases of `replay`, `windows` and chunks of std for pairs and outcomes (`lists`,
  `obligation_check`), `is_ascii_digit` (`text`).
- Conversions: `kind_of` of `witness_text` as `TryFrom`; one function of a Result's number in `probe`; `From` for the counts of both headers, and one
  function that takes a header of N numbers; a bar of speed beside `nit_read_transition`.
- `leaf` of the counts for the two matches on kinds (`store_leaf`, `name_first`); `Space` away, by counts that saturate (`cnf`).
- Left over: `block_end` of `scan`, `write_byte`, `write_bytes` and `write_decimal` of `text_decimal` (the probe could use `Printer`), `lists::clear`
  beside `fill`; lines at `compose_cases` (lent by range), at `replay_text/src/form.rt` and at `count` of `Claims`, which need none.
- Speed: reading a lock of one gate takes some 250 instructions more than before (`read: K`, 1.18 of the Rust and 1.08 before); `line_length` of
  `scan` takes longer for a short line than `line_end` did (`witness read: comments 10000 bytes, empty lines`, 0.10 and 0.04).
- Answers (point 8): not every one was left out and tried, in the readers and the composer.

'''
s=s[:start]+middle+s[end:]
extra=lemmas()
s=s.rstrip('\n')+'\n\n'+extra
if not s.endswith('\n'): s+='\n'
open(PAGE,'w').write(s)
