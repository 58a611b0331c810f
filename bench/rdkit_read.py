"""Reads the records of an SDfile by RDKit, unsanitized; prints records per second."""
import sys
import time

from rdkit import Chem, RDLogger

RDLogger.DisableLog("rdApp.*")
start = time.perf_counter()
records = read = 0
for mol in Chem.ForwardSDMolSupplier(sys.argv[1], sanitize=False, removeHs=False):
    records += 1
    read += mol is not None
took = time.perf_counter() - start
print(f"{'RDKit':28} {took * 1e6:9.0f} us  {records / took:9.0f} records/s  read {read}")
