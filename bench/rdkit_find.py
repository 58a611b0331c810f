"""Counts the records of an SDfile that hold the query, by RDKit, unsanitized; prints records per second."""
import sys
import time

from rdkit import Chem, RDLogger

RDLogger.DisableLog("rdApp.*")
query = Chem.MolFromMolFile(sys.argv[2], sanitize=False)
start = time.perf_counter()
records = hits = 0
for mol in Chem.SDMolSupplier(sys.argv[1], sanitize=False, removeHs=False):
    records += 1
    if mol is not None and mol.HasSubstructMatch(query):
        hits += 1
took = time.perf_counter() - start
print(f"{'RDKit':28} {took * 1e6:9.0f} us  {records / took:9.0f} records/s  hits {hits}")
