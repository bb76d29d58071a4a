"""What is written to the PDO objects of a node once it is planned (docs/rules/messages.md)."""
from .pdo_objects import EVENT, INHIBIT, NO_RTR, START, TYPE
from .plan import Plan
from .wiring import RPDO, TPDO


def writes_of(plan, node):
    """By direction and number the entries that are written and their numbers, in order."""
    taken, made = plan.rpdo_messages(node), {}
    for number in plan.pdo_numbers(node, TPDO):
        made[TPDO, number] = tpdo_writes(plan.pdo(node, TPDO, number), plan.messages.get(plan.sender_of(node, number)))
    for number in plan.pdo_numbers(node, RPDO):
        made[RPDO, number] = rpdo_writes(plan.pdo(node, RPDO, number), taken.get(number), node)
    return made


def values_of(plan, node):
    """The number that each entry has behind these writes."""
    return {key: number for writes in writes_of(plan, node).values() for key, number in writes}


def of_controller(project, plan_of):
    """The same of the controller, which the manager doesn't write: it is configured from power-on on; {} where there is none.

    plan_of  gives the plan, for which it is asked where there is a controller
    """
    return {} if project.controller is None else values_of(plan_of(), project.controller)


def planned(project, devices):
    """The plan of a project with these data sheets, by their names."""
    return Plan(project, {node: devices[eds] for node, (_, eds) in project.nodes.items()})


def tpdo_writes(tpdo, planned):
    if planned is None:
        return off_writes(tpdo)
    kind, inhibit, event, _ = planned.message.numbers
    parameters = [(TYPE, kind), (INHIBIT, inhibit), (EVENT, event), (START, planned.message.start)]
    return tpdo.writes(NO_RTR | planned.identifier, parameters, planned.mapping)


def rpdo_writes(rpdo, planned, node):
    if planned is None:
        return off_writes(rpdo)
    parameters = [(TYPE, 0 if planned.message.numbers[0] <= 240 else 255)]
    parameters += [(EVENT, planned.milliseconds(node))] if planned.milliseconds(node) else []
    return rpdo.writes(planned.identifier, parameters, planned.rpdos[node][1])


def off_writes(pdo):
    """What turns off a PDO that no message uses."""
    off = pdo.off_write()
    return [] if off is None else [((pdo.communication, 1), off)]
