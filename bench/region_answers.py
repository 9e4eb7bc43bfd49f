"""What the reference says of the array regions of a text: of each module, callees first (of OUT callers first), the lines that are written of them, and the regions of each
statement and of the module. The programs by hand of region_programs.py, in_programs.py and out_programs.py say which lines must be among these."""
from reference import load

model, pipeline, printer, read, regions = map(load, ['model', 'pipeline', 'printer', 'read', 'regions'])


def region_module_lines(view, sets):
    yield f'module {view.module.name}'
    for before, added in printer.region_lines(view, sets):
        yield f'{before} {added}'
    for number in sets.at:
        yield f'{number}'
        yield from (' ' + printer.region_text(view.symbols, r) for r in sets.at[number])
    yield 'summary'
    yield from (' ' + printer.region_text(view.symbols, r) for r in sets.summary)


def result_lines(text):
    program = read.read(text, functions=True)
    views, found, known = pipeline.views(program), pipeline.analyse_scalars(program), {}
    for name in program.graph.order:
        sets = regions.regions(views[name], found[name]['transformers'], known)
        known[name] = (views[name].symbols, sets.summary)
        yield from region_module_lines(views[name], sets)


def with_ins(text):
    """Of each module, callees first, its view, what is found of its scalars, its READ and WRITE regions, and its IN regions."""
    program = read.read(text, functions=True)
    views, found, known, known_ins = pipeline.views(program), pipeline.analyse_scalars(program), {}, {}
    for name in program.graph.order:
        view, own = views[name], found[name]['transformers']
        sets = regions.regions(view, own, known)
        ins = regions.in_regions(view, own, sets, known_ins)
        known[name], known_ins[name] = (view.symbols, sets.summary), (view.symbols, ins.summary)
        yield view, found[name], sets, ins


def in_lines(text):
    for view, _, _, ins in with_ins(text):
        yield from region_module_lines(view, ins)


def out_lines(text):
    program = read.read(text, functions=True)
    views, found, known, known_ins, sets, ins, outs = pipeline.views(program), pipeline.analyse_scalars(program), {}, {}, {}, {}, {}
    for name in program.graph.order:
        view, own = views[name], found[name]['transformers']
        sets[name] = regions.regions(view, own, known)
        ins[name] = regions.in_regions(view, own, sets[name], known_ins)
        known[name], known_ins[name] = (view.symbols, sets[name].summary), (view.symbols, ins[name].summary)
    for name in reversed(program.graph.order):
        sites = [(caller, call, model.SiteOut(found[caller.module.name]['transformers'], outs[caller.module.name].at[call.id])) for caller, call in pipeline.call_sites(program, name)]
        outs[name] = regions.out_regions(views[name], found[name]['transformers'], sets[name], ins[name], sites)
        yield from region_module_lines(views[name], outs[name])
