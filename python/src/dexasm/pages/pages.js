for (const head of document.querySelectorAll('th')) {
  const sort = () => {
    const body = head.closest('table').tBodies[0], at = head.cellIndex;
    const isName = at === head.parentNode.cells.length - 1;
    const value = (row) => row.cells[at].textContent.replaceAll(',', '');
    const number = (row) => Number(value(row)) || 0;
    const text = (a, b) => value(a).localeCompare(value(b));
    const order = (a, b) => isName ? text(a, b) : number(b) - number(a) || text(a, b);
    const rows = [...body.rows].sort(order);
    if (head.getAttribute('aria-sort') === 'descending') rows.reverse();
    const isReversed = head.getAttribute('aria-sort') === 'descending';
    for (const other of head.parentNode.cells) other.removeAttribute('aria-sort');
    head.setAttribute('aria-sort', isReversed ? 'ascending' : 'descending');
    body.append(...rows);
  };
  head.addEventListener('click', sort);
  head.addEventListener('keydown', (event) => { if (event.key === 'Enter') sort(); });
}
