;;; rinddecade-dap.el --- Sources of ISPC stepped forwards and back  -*- lexical-binding: t; -*-

;; Package-Requires: ((emacs "27.1") (dap-mode "0.7"))

;;; Commentary:

;; The debugger rinddecade in dap-mode, which has no commands of its own that go back: here they are, with keys.

;;; Code:

(require 'dap-mode)
(require 'ispc-mode)

(defgroup rinddecade nil
  "The debugger of gangs."
  :group 'tools)

(defcustom rinddecade-program "rinddecade"
  "The program: its path, or a name that is looked up on the path."
  :type 'string)

(defcustom rinddecade-width 8
  "How many lanes a gang has."
  :type '(choice (const 4) (const 8) (const 16)))

(defcustom rinddecade-lane-threads nil
  "Whether each lane is a thread of its own; else the gang is the one thread."
  :type 'boolean)

(defun rinddecade--launch (launch)
  "LAUNCH with what it does not say: the adapter, and the source of the buffer."
  (let ((path (if (file-name-directory rinddecade-program) (expand-file-name rinddecade-program) rinddecade-program)))
    (-> launch
        (dap--put-if-absent :dap-server-path (list path "adapter"))
        (dap--put-if-absent :request "launch")
        (dap--put-if-absent :name "This source")
        (dap--put-if-absent :width rinddecade-width)
        (dap--put-if-absent :laneThreads (if rinddecade-lane-threads t :json-false))
        (dap--put-if-absent :program (buffer-file-name)))))

(defvar treemacs-text-scale nil
  "The list of variables reads it, and older versions of treemacs have it not.")

(defvar dap-exception-breakpoints nil
  "Each launch reads it, and dap-mode 0.7 has it in dap-ui alone.")

(defun rinddecade--is-gang (session)
  "Whether SESSION runs a gang."
  (equal (plist-get (dap--debug-session-launch-args session) :type) "rinddecade"))

(defconst rinddecade--fault-buffer "*Rinddecade fault*"
  "The buffer that says what a fault means: it is too long for the last line.")

(defun rinddecade--hide-fault ()
  "Takes the window away that says what a fault means."
  (let ((window (get-buffer-window rinddecade--fault-buffer)))
    (when window
      (quit-window nil window))))

(defun rinddecade--fit (window)
  "Fits WINDOW to what it shows, and leaves the source its half."
  (fit-window-to-buffer window (/ (frame-height) 2)))

(defun rinddecade--show-fault (text meaning)
  "Shows TEXT of a fault, and MEANING in a window below."
  (with-current-buffer (get-buffer-create rinddecade--fault-buffer)
    (special-mode)
    (let ((inhibit-read-only t))
      (erase-buffer)
      (insert text "\n\n" meaning)
      (goto-char (point-min)))
    (display-buffer (current-buffer) '(display-buffer-at-bottom (window-height . rinddecade--fit))))
  (message "%s" text))

(defun rinddecade--explain-fault (text session)
  "Shows TEXT of a fault of SESSION, and below what the fault means."
  (dap--send-message (dap--make-request "exceptionInfo" (list :threadId 1))
                     (dap--resp-handler
                      (lambda (response)
                        (let ((body (gethash "body" response)))
                          (rinddecade--show-fault text (format "%s %s" (gethash "exceptionId" body) (gethash "description" body))))))
                     session))

(defun rinddecade--stop-lanes (session reason)
  "Marks the lanes of SESSION as stopped for REASON, where each is a thread.
All have stopped, and dap-mode marks the one alone that a stop names: it would
hold the others for running, and show none of their frames."
  (let ((launch (dap--debug-session-launch-args session)))
    (when (eq (plist-get launch :laneThreads) t)
      (dotimes (lane (plist-get launch :width))
        (puthash (1+ lane) reason (dap--debug-session-thread-states session))))))

(defun rinddecade--show-stop (take session event)
  "Has TAKE take EVENT of SESSION, a stop, and shows where a gang has stopped.
Of a fault it shows what it means: dap-mode would ask in words of its own."
  (let* ((body (gethash "body" event))
         (text (gethash "text" body))
         (is-fault (equal (gethash "reason" body) "exception")))
    (when is-fault
      (puthash "reason" "fault" body))
    (rinddecade--hide-fault)
    (rinddecade--stop-lanes session (gethash "reason" body))
    (funcall take session event)
    (if is-fault
        (rinddecade--explain-fault text session)
      (message "%s" text))))

(defconst rinddecade--ended "The session has ended: F5 begins anew"
  "What is said at the end of a session, and of a step behind it.")

(defun rinddecade--show-end (take session event)
  "Has TAKE take EVENT of SESSION, its end, and says so.
Else dap-mode would say that its process was killed."
  (set-process-sentinel (dap--debug-session-proc session) #'ignore)
  (rinddecade--hide-fault)
  (funcall take session event)
  (message "%s" rinddecade--ended))

(defun rinddecade--show-output (take session event)
  "Has TAKE take EVENT of SESSION, a text of the console, and show it.
Of its own accord dap-mode shows what a program writes, and none of these."
  (let ((dap-output-buffer-filter nil))
    (funcall take session event)))

(defun rinddecade--take-event (take session event)
  "Has TAKE take EVENT of SESSION, and shows what it says of a gang."
  (pcase (and (rinddecade--is-gang session) (gethash "event" event))
    ("stopped" (rinddecade--show-stop take session event))
    ("terminated" (rinddecade--show-end take session event))
    ("output" (rinddecade--show-output take session event))
    (_ (funcall take session event))))

(defun rinddecade--show-column (session)
  "Puts the cursor on the column where SESSION stands.
Columns count from 1, and dap-mode goes that many characters on."
  (let ((frame (dap--debug-session-active-frame session)))
    (when (and frame (rinddecade--is-gang session) (equal (dap--get-path-for-frame frame) buffer-file-name))
      (goto-char (point-min))
      (forward-line (1- (gethash "line" frame)))
      (forward-char (1- (gethash "column" frame))))))

(defun rinddecade--step (step command session)
  "Has STEP do COMMAND of SESSION. A gang that refuses it stands where it stood.
Else dap-mode would hold it for running, and refuse all later steps itself."
  (cond
   ((not (rinddecade--is-gang session)) (funcall step command session))
   ((not (dap--session-running session)) (message "%s" rinddecade--ended))
   ((not (dap--debug-session-thread-id session)) (funcall step command session))
   (t
    (let* ((thread (dap--debug-session-thread-id session))
           (refused (lambda (why)
                      (dap--select-thread-id session thread t)
                      (message "%s" why))))
      (dap--send-message (dap--make-request command (list :threadId thread)) (dap--resp-handler nil refused) session)
      (dap--resume-application session)))))

(defun rinddecade--continue (continue session thread)
  "Has CONTINUE go on with THREAD of SESSION.
A gang goes on as `rinddecade--step' says."
  (rinddecade--step (lambda (_command session) (funcall continue session thread)) "continue" session))

(defun rinddecade--show-refusal (session)
  "Goes to the place where the source of SESSION is refused, if it is."
  (let ((why (dap--debug-session-error-message session)))
    (when (and why (rinddecade--is-gang session) (string-match "\\`\\(.+?\\):\\([0-9]+\\):\\([0-9]+\\): " why))
      (let ((line (string-to-number (match-string 2 why)))
            (column (string-to-number (match-string 3 why))))
        (pop-to-buffer (find-file-noselect (match-string 1 why)))
        (goto-char (point-min))
        (forward-line (1- line))
        (forward-char (1- column))
        (message "%s" why)))))

(add-hook 'dap-terminated-hook #'rinddecade--show-refusal)
(add-hook 'dap-stack-frame-changed-hook #'rinddecade--show-column)
(advice-add 'dap--on-event :around #'rinddecade--take-event)
(advice-add 'dap--step :around #'rinddecade--step)
(advice-add 'dap-continue :around #'rinddecade--continue)

(dap-register-debug-provider "rinddecade" #'rinddecade--launch)
(dap-register-debug-template "Rinddecade: this source" (list :type "rinddecade" :name "This source"))
(dap-register-debug-template "Rinddecade: this source from its end" (list :type "rinddecade" :name "From its end" :stopOnEntry :json-false))

(defun rinddecade--asked ()
  "The arguments of a launch that the user is asked for, without the empty ones."
  (let ((input (read-file-name "Input, if any: " nil "" t))
        (entry (read-string "Entry, the first function if empty: ")))
    (append (unless (string-empty-p input) (list :input (expand-file-name input)))
            (unless (string-empty-p entry) (list :entry entry)))))

(defun rinddecade-go (&optional is-asked)
  "Begins with the source of the buffer, or goes on to the next breakpoint.
With a prefix argument, IS-ASKED, it asks for input and entry and begins."
  (interactive "P")
  (if (and (not is-asked) (dap--session-running (dap--cur-session)))
      (call-interactively #'dap-continue)
    (dap-debug (append (list :type "rinddecade") (when is-asked (rinddecade--asked))))))

(defun rinddecade-breakpoint-toggle ()
  "Sets a breakpoint on the line or takes it away, and says which.
A terminal has no fringe that would mark it."
  (interactive)
  (dap-breakpoint-toggle)
  (message (if (dap--get-breakpoint-at-point (gethash buffer-file-name (dap--get-breakpoints)))
               "Line %d has a breakpoint"
             "Line %d has no breakpoint")
           (line-number-at-pos)))

(defun rinddecade-step-back (session)
  "Takes back the last step of SESSION."
  (interactive (list (dap--cur-session-or-die)))
  (dap--step "stepBack" session))

(defun rinddecade-reverse-continue (session)
  "Goes back in SESSION to a breakpoint or the change of a watch.
Where there is none, it goes to the beginning of the history."
  (interactive (list (dap--cur-session-or-die)))
  (dap--step "reverseContinue" session))

(defun rinddecade--frame (session)
  "The argument that names the frame of SESSION which is looked at, if any."
  (let ((frame (dap--debug-session-active-frame session)))
    (when frame
      (list :frameId (gethash "id" frame)))))

(defun rinddecade-line (line session)
  "Shows what SESSION answers to LINE, or why it refuses it.
It is a command of the debugger, as `watch total', or an expression, which
has its value in the frame that is looked at."
  (interactive (list (read-string "Line: " nil 'rinddecade-line-history) (dap--cur-active-session-or-die)))
  (dap--send-message (dap--make-request "evaluate" (append (list :expression line :context "repl") (rinddecade--frame session)))
                     (dap--resp-handler (lambda (response) (message "%s" (gethash "result" (gethash "body" response))))
                                        (lambda (why) (message "%s" why)))
                     session))

(defvar rinddecade-line-history nil
  "The lines that were sent.")

(defconst rinddecade-keys
  '(("<f5>" . rinddecade-go)
    ("S-<f5>" . rinddecade-reverse-continue)
    ("<f9>" . rinddecade-breakpoint-toggle)
    ("<f10>" . dap-next)
    ("S-<f10>" . rinddecade-step-back)
    ("<f11>" . dap-step-in)
    ("S-<f11>" . dap-step-out)
    ("C-c C-c" . rinddecade-go)
    ("C-c C-r" . rinddecade-reverse-continue)
    ("C-c C-n" . dap-next)
    ("C-c C-p" . rinddecade-step-back)
    ("C-c C-s" . dap-step-in)
    ("C-c C-f" . dap-step-out)
    ("C-c C-b" . rinddecade-breakpoint-toggle)
    ("C-c C-l" . rinddecade-line))
  "The keys in sources, for terminals without those of functions too.")

(dolist (row rinddecade-keys)
  (define-key ispc-mode-map (kbd (car row)) (cdr row)))

(provide 'rinddecade-dap)

;;; rinddecade-dap.el ends here
