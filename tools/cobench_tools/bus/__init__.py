"""On the bus: what `cobtool bus` reads from devices, writes to them and watches, by the adapters of python-can."""
